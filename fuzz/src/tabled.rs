//! A program of the peer written into the proved runtime's tables, and such tables read as a program, whatever their numbers are: as crates/tabled and
//! crates/tables say it.

use bench::plain::program::{Action, Expr, Move, Number, State, Stmt, Tables, Type, Variable};
use bench::plain::{ACTIONS, CHOICES, EVENTS, EXPRESSIONS, STATEMENTS, STATES};
use namakviz::raw::{Kind, Program};

const VARIABLES: usize = Program::ALL_VARIABLES;

/// Every place 0: the program of no lines.
pub fn empty() -> Box<Program> {
    Box::new(Program {
        event_types: [0; EVENTS + 1],
        kinds: 0,
        variable_of: [0; VARIABLES + 1],
        variable_type: [0; VARIABLES + 1],
        exprs: [0; 3 * (EXPRESSIONS + 1)],
        stmts: [0; 5 * (STATEMENTS + 1)],
        inits: [0; 2 * Program::PAIRS],
        action_of: [0; ACTIONS + 1],
        action_body: [0; ACTIONS + 1],
        state_of: [0; STATES + 1],
        state_entry: [0; STATES + 1],
        state_exit: [0; STATES + 1],
        defers: [0; (STATES + 1) * (EVENTS + 1)],
        moves: [0; 3 * Program::MOVES],
        steps: 0,
        calls: 0,
        acts: 0,
        start: Kind(0),
    })
}

fn byte(number: Number) -> u8 {
    u8::try_from(number).unwrap_or(u8::MAX)
}

fn type_code(ty: Type) -> u8 {
    match ty {
        Type::Void => 0,
        Type::Bool => 1,
        Type::Int => 2,
        Type::Event => 3,
        Type::Id => 4,
    }
}

fn expr_row(expr: &Expr) -> [u32; 3] {
    let row = |kind, a: Number, b: Number| [kind, u32::from(a), u32::from(b)];
    match *expr {
        Expr::Bot => row(0, 0, 0),
        Expr::Int(value) => [1, (value as u32) ^ 0x8000_0000, 0],
        Expr::Bool(value) => row(2, u16::from(value), 0),
        Expr::Var(variable) => row(3, variable, 0),
        Expr::This => row(4, 0, 0),
        Expr::Msg => row(5, 0, 0),
        Expr::Arg => row(6, 0, 0),
        Expr::Star => row(7, 0, 0),
        Expr::Not(a) => row(8, a, 0),
        Expr::Neg(a) => row(9, a, 0),
        Expr::Add(a, b) => row(10, a, b),
        Expr::Sub(a, b) => row(11, a, b),
        Expr::And(a, b) => row(12, a, b),
        Expr::Or(a, b) => row(13, a, b),
    }
}

/// A statement whose first pair, where it has pairs, stands at `place`.
fn stmt_row(stmt: &Stmt, place: usize) -> [u16; 5] {
    match stmt {
        Stmt::Skip => [0, 0, 0, 0, 0],
        Stmt::Assign { var, expr } => [1, *var, *expr, 0, 0],
        Stmt::New { var, machine, init } => [2, *var, *machine, place as u16, init.len() as u16],
        Stmt::Delete => [3, 0, 0, 0, 0],
        Stmt::Send { to, event, arg } => [4, *to, *event, *arg, 0],
        Stmt::Raise { event, arg } => [5, *event, *arg, 0, 0],
        Stmt::Leave => [6, 0, 0, 0, 0],
        Stmt::Return => [7, 0, 0, 0, 0],
        Stmt::Assert { expr } => [8, *expr, 0, 0, 0],
        Stmt::Seq { first, second } => [9, *first, *second, 0, 0],
        Stmt::If { cond, then, other } => [10, *cond, *then, *other, 0],
        Stmt::While { cond, body } => [11, *cond, *body, 0, 0],
    }
}

/// The program in tables, which must have a row for each of the program's. A state that defers what cannot be an event is one of kind 255, of no program.
pub fn written(tables: &Tables) -> Box<Program> {
    let mut program = empty();
    program.event_types[0] = tables.events() as u8;
    for (number, &ty) in tables.events.iter().enumerate().skip(1) {
        program.event_types[number] = type_code(ty);
    }
    program.kinds = tables.kinds as u8;
    program.variable_of[0] = (tables.variables.len() - 1) as u16;
    for (number, variable) in tables.variables.iter().enumerate().skip(1) {
        program.variable_of[number] = variable.of;
        program.variable_type[number] = type_code(variable.ty);
    }
    program.exprs[0] = (tables.exprs.len() - 1) as u32;
    for (number, expr) in tables.exprs.iter().enumerate().skip(1) {
        program.exprs[3 * number..][..3].copy_from_slice(&expr_row(expr));
    }
    write_stmts(tables, &mut program);
    write_states(tables, &mut program);
    let moves = tables.steps.iter().chain(&tables.calls).chain(&tables.acts);
    for (line, row) in moves.zip(program.moves.chunks_exact_mut(3)) {
        row.copy_from_slice(&[byte(line.from), byte(line.on), byte(line.to)]);
    }
    (program.steps, program.calls, program.acts) = (tables.steps.len(), tables.calls.len(), tables.acts.len());
    program.start = Kind(byte(tables.start));
    program
}

fn write_stmts(tables: &Tables, program: &mut Program) {
    program.stmts[0] = (tables.stmts.len() - 1) as u16;
    let mut pairs = 0;
    for (number, stmt) in tables.stmts.iter().enumerate().skip(1) {
        program.stmts[5 * number..][..5].copy_from_slice(&stmt_row(stmt, pairs));
        if let Stmt::New { init, .. } = stmt {
            for &(variable, expr) in init {
                program.inits[2 * pairs..][..2].copy_from_slice(&[variable, expr]);
                pairs += 1;
            }
        }
    }
}

fn write_states(tables: &Tables, program: &mut Program) {
    program.action_of[0] = (tables.actions.len() - 1) as u8;
    for (number, action) in tables.actions.iter().enumerate().skip(1) {
        program.action_of[number] = byte(action.of);
        program.action_body[number] = action.body;
    }
    program.state_of[0] = (tables.states.len() - 1) as u8;
    for (number, state) in tables.states.iter().enumerate().skip(1) {
        let deferrable = state.defer.iter().all(|&event| (1..=EVENTS).contains(&event.into()));
        program.state_of[number] = if deferrable { byte(state.of) } else { u8::MAX };
        program.state_entry[number] = state.entry;
        program.state_exit[number] = state.exit;
        for &event in state.defer.iter().filter(|_| deferrable) {
            program.defers[number * (EVENTS + 1) + event as usize] = 1;
        }
    }
}

/// The choices of a text, each as its number, padded with zeros.
pub fn choice_row(choices: &[u32]) -> [u32; CHOICES] {
    let mut row = [0; CHOICES];
    row[..choices.len()].copy_from_slice(choices);
    row
}

fn type_of(code: u8) -> Type {
    match code {
        1 => Type::Bool,
        2 => Type::Int,
        3 => Type::Event,
        4 => Type::Id,
        _ => Type::Void,
    }
}

fn short(word: u32) -> Number {
    Number::try_from(word).unwrap_or(Number::MAX)
}

fn expr_of(row: &[u32]) -> Expr {
    let (a, b) = (short(row[1]), short(row[2]));
    match row[0] {
        1 => Expr::Int((row[1] ^ 0x8000_0000) as i32),
        2 => Expr::Bool(row[1] == 1),
        3 => Expr::Var(a),
        4 => Expr::This,
        5 => Expr::Msg,
        6 => Expr::Arg,
        7 => Expr::Star,
        8 => Expr::Not(a),
        9 => Expr::Neg(a),
        10 => Expr::Add(a, b),
        11 => Expr::Sub(a, b),
        12 => Expr::And(a, b),
        13 => Expr::Or(a, b),
        _ => Expr::Bot,
    }
}

/// The number of a kind or of an event that a word stands for.
fn low(word: u16) -> Number {
    word.min(255)
}

fn stmt_of(row: &[u16], inits: &[u16]) -> Stmt {
    let (x, y, z) = (row[1], row[2], row[3]);
    match row[0] {
        1 => Stmt::Assign { var: x, expr: y },
        2 => {
            let pairs = inits.chunks_exact(2).skip(z as usize).take(row[4] as usize);
            Stmt::New { var: x, machine: low(y), init: pairs.map(|pair| (pair[0], pair[1])).collect() }
        }
        3 => Stmt::Delete,
        4 => Stmt::Send { to: x, event: low(y), arg: z },
        5 => Stmt::Raise { event: low(x), arg: y },
        6 => Stmt::Leave,
        7 => Stmt::Return,
        8 => Stmt::Assert { expr: x },
        9 => Stmt::Seq { first: x, second: y },
        10 => Stmt::If { cond: x, then: y, other: z },
        11 => Stmt::While { cond: x, body: y },
        _ => Stmt::Skip,
    }
}

/// Number 0 of a table, and its rows as far as its count and its size go.
fn rows<T>(first: T, count: usize, size: usize, row: impl Fn(usize) -> T) -> Vec<T> {
    std::iter::once(first).chain((1..=count.min(size)).map(row)).collect()
}

fn moves_of(program: &Program, place: usize, count: usize) -> Vec<Move> {
    let rows = program.moves.chunks_exact(3).skip(place).take(count);
    rows.map(|row| Move { from: row[0].into(), on: row[1].into(), to: row[2].into() }).collect()
}

/// The program that the tables are.
pub fn read(program: &Program) -> Tables {
    let none = Tables::default();
    let defer =
        |number: usize| (1..=EVENTS).filter(|event| program.defers[number * (EVENTS + 1) + event] != 0).map(|event| event as Number).collect();
    Tables {
        events: rows(Type::Void, program.event_types[0].into(), EVENTS, |number| type_of(program.event_types[number])),
        kinds: program.kinds.into(),
        variables: rows(none.variables[0].clone(), program.variable_of[0].into(), VARIABLES, |number| Variable {
            of: low(program.variable_of[number]),
            ty: type_of(program.variable_type[number]),
        }),
        exprs: rows(Expr::Bot, program.exprs[0] as usize, EXPRESSIONS, |number| expr_of(&program.exprs[3 * number..][..3])),
        stmts: rows(Stmt::Skip, program.stmts[0].into(), STATEMENTS, |number| stmt_of(&program.stmts[5 * number..][..5], &program.inits)),
        actions: rows(none.actions[0].clone(), program.action_of[0].into(), ACTIONS, |number| Action {
            of: program.action_of[number].into(),
            body: program.action_body[number],
        }),
        states: rows(none.states[0].clone(), program.state_of[0].into(), STATES, |number| State {
            of: program.state_of[number].into(),
            defer: defer(number),
            entry: program.state_entry[number],
            exit: program.state_exit[number],
        }),
        steps: moves_of(program, 0, program.steps),
        calls: moves_of(program, program.steps, program.calls),
        acts: moves_of(program, program.steps.saturating_add(program.calls), program.acts),
        start: program.start.0.into(),
    }
}
