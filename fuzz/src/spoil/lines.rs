//! Damages of a program as lines, for a text and for tables alike: answers 4 to 9, a void variable, a list that does not ascend.

use bench::plain::program::{Expr, Move, Number, Stmt, Tables, Type};
use bench::plain::{EXPRESSIONS, HEIGHT, KINDS, STARS, STATEMENTS};

use crate::rng::Rng;

type Damage = fn(&mut Rng, &mut Tables) -> Option<()>;

const DAMAGES: [Damage; 16] = [
    reference,
    reference,
    part,
    part,
    variable,
    new_into_any,
    void_variable,
    descending_init,
    foreign_init,
    descending_defer,
    doubled_move,
    move_anywhere,
    breaking_exit,
    high,
    many_stars,
    kind_without_state,
];

/// One damage, sometimes another; one that the program has no place for is left out.
pub fn spoil(rng: &mut Rng, tables: &mut Tables) {
    let mut done = 0;
    for _ in 0..30 {
        if DAMAGES[rng.below(DAMAGES.len())](rng, tables).is_some() {
            done += 1;
        }
        if done == 2 || done == 1 && rng.percent(85) {
            break;
        }
    }
}

/// A number of a table with this many places, or just beyond it, or far.
fn near(rng: &mut Rng, places: usize) -> Number {
    match rng.below(6) {
        0 => 0,
        1 => places as Number,
        2 => rng.pick(&[254, 255, 256, 1024, 1025, Number::MAX]),
        _ => rng.below(places) as Number,
    }
}

/// The numbers of the rows that are so.
fn those<T>(table: &[T], so: impl Fn(&T) -> bool) -> Vec<usize> {
    table.iter().enumerate().skip(1).filter(|(_, row)| so(row)).map(|(number, _)| number).collect()
}

/// 4, 5 or nothing: any reference of a line becomes another.
fn reference(rng: &mut Rng, tables: &mut Tables) -> Option<()> {
    let (exprs, stmts, states, actions) = (tables.exprs.len(), tables.stmts.len(), tables.states.len(), tables.actions.len());
    match rng.below(7) {
        0 => {
            let state = rng.maybe_pick(&those(&tables.states, |_| true))?;
            let stmt = near(rng, stmts);
            let state = &mut tables.states[state];
            *if rng.percent(50) { &mut state.entry } else { &mut state.exit } = stmt;
        }
        1 => {
            let action = rng.maybe_pick(&those(&tables.actions, |_| true))?;
            tables.actions[action].body = near(rng, stmts);
        }
        2 => {
            let state = rng.maybe_pick(&those(&tables.states, |_| true))?;
            tables.states[state].of = near(rng, tables.kinds + 1);
        }
        3 => {
            let variable = rng.maybe_pick(&those(&tables.variables, |_| true))?;
            tables.variables[variable].of = near(rng, tables.kinds + 1);
        }
        4 => tables.start = near(rng, tables.kinds + 1),
        5 => {
            let expr = near(rng, exprs);
            let named = rng.maybe_pick(&those(&tables.stmts, |it| it.exprs().next().is_some()))?;
            match &mut tables.stmts[named] {
                Stmt::Assign { expr: place, .. } | Stmt::Assert { expr: place } | Stmt::Send { to: place, .. } | Stmt::Raise { arg: place, .. } => {
                    *place = expr
                }
                Stmt::If { cond: place, .. } | Stmt::While { cond: place, .. } => *place = expr,
                Stmt::New { init, .. } => init[0].1 = expr,
                _ => return None,
            }
        }
        _ => {
            let state = rng.maybe_pick(&those(&tables.states, |_| true))?;
            let lines = [&mut tables.steps, &mut tables.calls, &mut tables.acts];
            let mut lines: Vec<&mut Move> = lines.into_iter().flatten().collect();
            let count = lines.len();
            let line = lines.get_mut(rng.below(count.max(1)))?;
            match rng.below(3) {
                0 => line.from = rng.pick(&[state as Number, 0, states as Number]),
                1 => line.on = near(rng, tables.events.len()),
                _ => line.to = near(rng, states.max(actions)),
            }
        }
    }
    Some(())
}

/// 5, mostly: a part of an expression or a statement becomes another.
fn part(rng: &mut Rng, tables: &mut Tables) -> Option<()> {
    if rng.percent(50) {
        let whole = rng.maybe_pick(&those(&tables.exprs, |it| it.parts().next().is_some()))?;
        let part = if rng.percent(40) { whole as Number } else { near(rng, tables.exprs.len()) };
        match &mut tables.exprs[whole] {
            Expr::Add(a, b) | Expr::Sub(a, b) | Expr::And(a, b) | Expr::Or(a, b) => *if rng.percent(50) { a } else { b } = part,
            Expr::Not(a) | Expr::Neg(a) => *a = part,
            _ => return None,
        }
    } else {
        let whole = rng.maybe_pick(&those(&tables.stmts, |it| it.places().next().is_some()))?;
        let part = if rng.percent(40) { whole as Number } else { near(rng, tables.stmts.len()) };
        match &mut tables.stmts[whole] {
            Stmt::Seq { first: a, second: b } | Stmt::If { then: a, other: b, .. } => *if rng.percent(50) { a } else { b } = part,
            Stmt::While { body, .. } => *body = part,
            _ => return None,
        }
    }
    Some(())
}

/// 4: any variable in place of the right one.
fn variable(rng: &mut Rng, tables: &mut Tables) -> Option<()> {
    let variable = near(rng, tables.variables.len());
    if rng.percent(50) {
        let named = rng.maybe_pick(&those(&tables.exprs, |it| matches!(it, Expr::Var(_))))?;
        tables.exprs[named] = Expr::Var(variable);
    } else {
        let named = rng.maybe_pick(&those(&tables.stmts, |it| matches!(it, Stmt::Assign { .. })))?;
        if let Stmt::Assign { var, .. } = &mut tables.stmts[named] {
            *var = variable;
        }
    }
    Some(())
}

/// 4: `new` into any variable, or of any kind.
fn new_into_any(rng: &mut Rng, tables: &mut Tables) -> Option<()> {
    let (any, kind) = (near(rng, tables.variables.len()), near(rng, tables.kinds + 1));
    let new = rng.maybe_pick(&those(&tables.stmts, |it| matches!(it, Stmt::New { .. })))?;
    if let Stmt::New { var, machine, .. } = &mut tables.stmts[new] {
        if rng.percent(60) {
            *var = any;
        } else {
            *machine = kind;
        }
    }
    Some(())
}

fn void_variable(rng: &mut Rng, tables: &mut Tables) -> Option<()> {
    let variable = rng.maybe_pick(&those(&tables.variables, |_| true))?;
    tables.variables[variable].ty = Type::Void;
    Some(())
}

fn any_init<'a>(rng: &mut Rng, tables: &'a mut Tables, least: usize) -> Option<&'a mut [(Number, Number)]> {
    let new = rng.maybe_pick(&those(&tables.stmts, |it| matches!(it, Stmt::New { init, .. } if init.len() >= least)))?;
    match &mut tables.stmts[new] {
        Stmt::New { init, .. } => Some(init),
        _ => None,
    }
}

fn descending_init(rng: &mut Rng, tables: &mut Tables) -> Option<()> {
    let init = any_init(rng, tables, 2)?;
    if rng.percent(50) {
        init.swap(0, 1);
    } else {
        init[1].0 = init[0].0;
    }
    Some(())
}

/// 4: any variable in `init`.
fn foreign_init(rng: &mut Rng, tables: &mut Tables) -> Option<()> {
    let any = near(rng, tables.variables.len());
    any_init(rng, tables, 1)?[0].0 = any;
    Some(())
}

fn descending_defer(rng: &mut Rng, tables: &mut Tables) -> Option<()> {
    let state = rng.maybe_pick(&those(&tables.states, |_| true))?;
    let event = near(rng, tables.events.len());
    tables.states[state].defer.push(event);
    Some(())
}

/// 6: a line again, or a call beside a step.
fn doubled_move(rng: &mut Rng, tables: &mut Tables) -> Option<()> {
    let lines: Vec<&Move> = tables.steps.iter().chain(&tables.calls).collect();
    let act = rng.percent(40);
    let line = if act { tables.acts.get(rng.below(tables.acts.len().max(1))) } else { lines.get(rng.below(lines.len().max(1))).copied() }?.clone();
    if act {
        tables.acts.push(line);
    } else if rng.percent(50) {
        tables.steps.push(line);
    } else {
        tables.calls.push(line);
    }
    Some(())
}

/// 4 or nothing: a step, call or act line that leads anywhere.
fn move_anywhere(rng: &mut Rng, tables: &mut Tables) -> Option<()> {
    let (states, actions) = (tables.states.len(), tables.actions.len());
    let (moves, places) = match rng.below(3) {
        0 => (&mut tables.steps, states),
        1 => (&mut tables.calls, states),
        _ => (&mut tables.acts, actions),
    };
    let count = moves.len();
    moves.get_mut(rng.below(count.max(1)))?.to = rng.below(places) as Number;
    Some(())
}

fn add_stmt(tables: &mut Tables, stmt: Stmt) -> Option<Number> {
    (tables.stmts.len() <= STATEMENTS).then(|| tables.stmts.push(stmt))?;
    Some((tables.stmts.len() - 1) as Number)
}

fn add_expr(tables: &mut Tables, expr: Expr) -> Option<Number> {
    (tables.exprs.len() <= EXPRESSIONS).then(|| tables.exprs.push(expr))?;
    Some((tables.exprs.len() - 1) as Number)
}

/// 7: an exit with raise, return or leave, perhaps inside another statement.
fn breaking_exit(rng: &mut Rng, tables: &mut Tables) -> Option<()> {
    let state = rng.maybe_pick(&those(&tables.states, |_| true))?;
    let event = 1.min(tables.events() as Number);
    let breaking = match rng.below(3) {
        0 => Stmt::Leave,
        1 => Stmt::Return,
        _ => Stmt::Raise { event, arg: 0 },
    };
    let mut exit = add_stmt(tables, breaking)?;
    if rng.percent(50) {
        exit = add_stmt(tables, Stmt::Seq { first: 0, second: exit })?;
    }
    tables.states[state].exit = exit;
    Some(())
}

/// 8: an expression or a statement of height 32 or 33 that serves nothing.
fn high(rng: &mut Rng, tables: &mut Tables) -> Option<()> {
    let levels = HEIGHT - usize::from(rng.percent(20));
    if rng.percent(50) {
        let mut whole = add_expr(tables, Expr::Arg)?;
        for _ in 0..levels {
            whole = add_expr(tables, Expr::Not(whole))?;
        }
    } else {
        let mut whole = add_stmt(tables, Stmt::Delete)?;
        for _ in 0..levels {
            whole = add_stmt(tables, Stmt::Seq { first: whole, second: 0 })?;
        }
    }
    Some(())
}

/// 8: a statement with eight or nine stars that serves nothing.
fn many_stars(rng: &mut Rng, tables: &mut Tables) -> Option<()> {
    let mut whole = add_expr(tables, Expr::Star)?;
    for _ in 1..STARS + usize::from(rng.percent(80)) {
        let star = add_expr(tables, Expr::Star)?;
        whole = add_expr(tables, Expr::And(whole, star))?;
    }
    add_stmt(tables, Stmt::Assert { expr: whole })?;
    Some(())
}

/// 9, or 3: one kind more.
fn kind_without_state(_: &mut Rng, tables: &mut Tables) -> Option<()> {
    tables.kinds += 1;
    (tables.kinds <= KINDS + 1).then_some(())
}
