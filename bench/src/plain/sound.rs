//! The faults of a program: answers 4 to 9, each pass with its first faulty line.

use super::program::{Expr, Number, Stmt, Tables, Type};
use super::{Answer, Program, ACTIONS, EVENTS, EXPRESSIONS, HEIGHT, KINDS, STARS, STATEMENTS, STATES, VARIABLES};

/// Whether the program breaks none of 3 to 9, has no void variable and no list that does not ascend.
pub fn sound(program: &Program) -> bool {
    sound_tables(&program.tables)
}

/// The same of tables that are not yet a program.
pub fn sound_tables(tables: &Tables) -> bool {
    in_size(tables) && well_formed(tables) && fault(tables).is_none()
}

fn in_size(tables: &Tables) -> bool {
    tables.events() <= EVENTS
        && tables.kinds <= KINDS
        && tables.exprs.len() <= EXPRESSIONS + 1
        && tables.stmts.len() <= STATEMENTS + 1
        && tables.actions.len() <= ACTIONS + 1
        && tables.states.len() <= STATES + 1
        && variables_in_size(tables)
}

fn variables_in_size(tables: &Tables) -> bool {
    let mut counts = [0; KINDS + 1];
    for variable in &tables.variables[1..] {
        if let Some(count) = counts.get_mut(variable.of as usize) {
            *count += 1;
        }
    }
    counts.iter().all(|&count| count <= VARIABLES)
}

fn well_formed(tables: &Tables) -> bool {
    tables.variables[1..].iter().all(|variable| variable.ty != Type::Void)
        && tables.states.iter().all(|state| state.defer.windows(2).all(|two| two[0] < two[1]))
        && tables.stmts.iter().all(|stmt| match stmt {
            Stmt::New { init, .. } => init.windows(2).all(|two| two[0].0 < two[1].0),
            _ => true,
        })
}

/// Where the lines of each table begin: the line of number n is n more than this.
struct Lines {
    variables: usize,
    exprs: usize,
    stmts: usize,
    actions: usize,
    states: usize,
    moves: usize,
}

impl Lines {
    fn of(tables: &Tables) -> Lines {
        let variables = tables.events() + tables.kinds;
        let exprs = variables + tables.variables.len() - 1;
        let stmts = exprs + tables.exprs.len() - 1;
        let actions = stmts + tables.stmts.len() - 1;
        let states = actions + tables.actions.len() - 1;
        let moves = states + tables.states.len() - 1;
        Lines { variables, exprs, stmts, actions, states, moves }
    }
}

/// The lowest answer that occurs, and its first faulty line.
pub fn fault(tables: &Tables) -> Option<(Answer, usize)> {
    let lines = Lines::of(tables);
    bad_reference(tables, &lines)
        .map(|line| (4, line))
        .or_else(|| bad_part(tables, &lines).map(|line| (5, line)))
        .or_else(|| foreign_variable(tables, &lines).map(|line| (4, line)))
        .or_else(|| doubling(tables, &lines).map(|line| (6, line)))
        .or_else(|| bad_exit(tables, &lines).map(|line| (7, line)))
        .or_else(|| too_high(tables, &lines).map(|line| (8, line)))
        .or_else(|| kind_without_state(tables).then_some((9, 0)))
}

/// The first place, from 1, of something in the table that is faulty. Place 0 is not asked.
fn first<T>(table: &[T], faulty: impl Fn(&T) -> bool) -> Option<usize> {
    table.iter().skip(1).position(faulty).map(|place| place + 1)
}

/// 4: a reference to something absent, or a state or action of another kind; `new` into a variable that is not of type id.
fn bad_reference(tables: &Tables, lines: &Lines) -> Option<usize> {
    let in_table = |number: Number, length: usize| number != 0 && (number as usize) < length;
    let kind = |number| in_table(number, tables.kinds + 1);
    let event = |number| in_table(number, tables.events.len());
    let variable = |number| in_table(number, tables.variables.len());
    let expr = |number| in_table(number, tables.exprs.len());
    let stmt = |number: Number| (number as usize) < tables.stmts.len();
    let state = |number| in_table(number, tables.states.len());
    let action = |number| in_table(number, tables.actions.len());

    let bad_expr = |e: &Expr| match *e {
        Expr::Var(number) => !variable(number),
        _ => !e.parts().all(expr),
    };
    let bad_stmt = |s: &Stmt| {
        let names_well = match s {
            Stmt::Assign { var, .. } => variable(*var),
            Stmt::New { var, machine, init } => {
                variable(*var) && kind(*machine) && init.iter().all(|&(number, _)| variable(number)) && tables.variables[*var as usize].ty == Type::Id
            }
            Stmt::Send { event: number, .. } | Stmt::Raise { event: number, .. } => event(*number),
            _ => true,
        };
        !names_well || !s.exprs().all(expr) || !s.places().all(stmt)
    };
    let moves = tables.steps.iter().chain(&tables.calls).map(|line| (line, true)).chain(tables.acts.iter().map(|line| (line, false)));
    let mut bad_moves = moves.map(|(line, to_state)| {
        let home = |number: Number| tables.states[number as usize].of;
        !(state(line.from) && event(line.on))
            || if to_state {
                !state(line.to) || home(line.to) != home(line.from)
            } else {
                !action(line.to) || tables.actions[line.to as usize].of != home(line.from)
            }
    });
    first(&tables.variables, |it| !kind(it.of))
        .map(|place| lines.variables + place)
        .or_else(|| first(&tables.exprs, bad_expr).map(|place| lines.exprs + place))
        .or_else(|| first(&tables.stmts, bad_stmt).map(|place| lines.stmts + place))
        .or_else(|| first(&tables.actions, |it| !kind(it.of) || !stmt(it.body)).map(|place| lines.actions + place))
        .or_else(|| {
            first(&tables.states, |it| !kind(it.of) || !it.defer.iter().all(|&number| event(number)) || !stmt(it.entry) || !stmt(it.exit))
                .map(|place| lines.states + place)
        })
        .or_else(|| bad_moves.position(|bad| bad).map(|place| lines.moves + place + 1))
        .or_else(|| {
            let moves = tables.steps.len() + tables.calls.len() + tables.acts.len();
            (!kind(tables.start)).then_some(lines.moves + moves + 1)
        })
}

/// 5: a part that is not lower than its whole, or something that is named twice.
fn bad_part(tables: &Tables, lines: &Lines) -> Option<usize> {
    let mut named_exprs = vec![false; tables.exprs.len()];
    let mut named_stmts = vec![false; tables.stmts.len()];
    let name = |named: &mut [bool], number: Number| std::mem::replace(&mut named[number as usize], true);
    for (number, expr) in tables.exprs.iter().enumerate().skip(1) {
        for part in expr.parts() {
            if part as usize >= number || name(&mut named_exprs, part) {
                return Some(lines.exprs + number);
            }
        }
    }
    for (number, stmt) in tables.stmts.iter().enumerate().skip(1) {
        for part in stmt.parts() {
            if part as usize >= number || name(&mut named_stmts, part) {
                return Some(lines.stmts + number);
            }
        }
        for expr in stmt.exprs() {
            if name(&mut named_exprs, expr) {
                return Some(lines.stmts + number);
            }
        }
    }
    for (number, action) in tables.actions.iter().enumerate().skip(1) {
        if action.body != 0 && name(&mut named_stmts, action.body) {
            return Some(lines.actions + number);
        }
    }
    for (number, state) in tables.states.iter().enumerate().skip(1) {
        for stmt in [state.entry, state.exit] {
            if stmt != 0 && name(&mut named_stmts, stmt) {
                return Some(lines.states + number);
            }
        }
    }
    None
}

/// 4, after 5: a variable of another kind than its expression or statement serves, or an `init` variable that is not the created kind's.
fn foreign_variable(tables: &Tables, lines: &Lines) -> Option<usize> {
    let stmts_serve = tables.served();
    let mut exprs_serve = vec![0; tables.exprs.len()];
    for (stmt, &kind) in tables.stmts.iter().zip(&stmts_serve) {
        for expr in stmt.exprs() {
            exprs_serve[expr as usize] = kind;
        }
    }
    for number in (1..tables.exprs.len()).rev() {
        for part in tables.exprs[number].parts() {
            exprs_serve[part as usize] = exprs_serve[number];
        }
    }
    let home = |number: Number| tables.variables[number as usize].of;
    let foreign = |kind: u8, number: Number| kind != 0 && Number::from(kind) != home(number);
    for (number, expr) in tables.exprs.iter().enumerate() {
        if let Expr::Var(variable) = *expr {
            if foreign(exprs_serve[number], variable) {
                return Some(lines.exprs + number);
            }
        }
    }
    for (number, stmt) in tables.stmts.iter().enumerate() {
        let faulty = match stmt {
            Stmt::Assign { var, .. } => foreign(stmts_serve[number], *var),
            Stmt::New { var, machine, init } => foreign(stmts_serve[number], *var) || init.iter().any(|&(variable, _)| home(variable) != *machine),
            _ => false,
        };
        if faulty {
            return Some(lines.stmts + number);
        }
    }
    None
}

/// 6: two transitions, or two actions, for one state and event.
fn doubling(tables: &Tables, lines: &Lines) -> Option<usize> {
    let width = tables.events.len();
    let mut transitions = vec![false; tables.states.len() * width];
    let mut actions = vec![false; tables.states.len() * width];
    let steps_and_calls = tables.steps.iter().chain(&tables.calls);
    for (place, line) in steps_and_calls.enumerate() {
        if std::mem::replace(&mut transitions[line.from as usize * width + line.on as usize], true) {
            return Some(lines.moves + place + 1);
        }
    }
    for (place, line) in tables.acts.iter().enumerate() {
        if std::mem::replace(&mut actions[line.from as usize * width + line.on as usize], true) {
            return Some(lines.moves + tables.steps.len() + tables.calls.len() + place + 1);
        }
    }
    None
}

/// 7: an exit with raise, return or leave anywhere inside.
fn bad_exit(tables: &Tables, lines: &Lines) -> Option<usize> {
    let mut breaks_off = vec![false; tables.stmts.len()];
    for (number, stmt) in tables.stmts.iter().enumerate() {
        breaks_off[number] = matches!(stmt, Stmt::Raise { .. } | Stmt::Return | Stmt::Leave) || stmt.parts().any(|part| breaks_off[part as usize]);
    }
    first(&tables.states, |state| breaks_off[state.exit as usize]).map(|place| lines.states + place)
}

/// 8: a height over 32, or more than 8 stars in a statement's own expressions.
fn too_high(tables: &Tables, lines: &Lines) -> Option<usize> {
    let mut heights: Vec<usize> = Vec::with_capacity(tables.exprs.len());
    let mut stars: Vec<usize> = Vec::with_capacity(tables.exprs.len());
    for (number, expr) in tables.exprs.iter().enumerate() {
        let height = 1 + expr.parts().map(|part| heights[part as usize]).max().unwrap_or(0);
        if height > HEIGHT {
            return Some(lines.exprs + number);
        }
        let own = usize::from(*expr == Expr::Star);
        let below: usize = expr.parts().map(|part| stars[part as usize]).sum();
        heights.push(height);
        stars.push(own + below);
    }
    let stmt_heights = tables.heights();
    for (number, stmt) in tables.stmts.iter().enumerate().skip(1) {
        let in_it: usize = stmt.exprs().map(|expr| stars[expr as usize]).sum();
        if usize::from(stmt_heights[number]) > HEIGHT || in_it > STARS {
            return Some(lines.stmts + number);
        }
    }
    None
}

/// 9: a machine kind with no state.
fn kind_without_state(tables: &Tables) -> bool {
    let mut has_state = [false; KINDS + 1];
    for state in &tables.states[1..] {
        has_state[state.of as usize] = true;
    }
    !has_state[1..=tables.kinds].iter().all(|&has| has)
}
