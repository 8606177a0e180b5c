//! Damages of a program in its tables: numbers changed where they stand.

use namakviz::raw::Program;

use super::Nudge;
use crate::rng::Rng;

/// How many rows of each table are used.
struct Used {
    events: usize,
    variables: usize,
    exprs: usize,
    stmts: usize,
    actions: usize,
    states: usize,
    moves: usize,
}

impl Used {
    fn of(program: &Program) -> Used {
        Used {
            events: (program.event_types[0] as usize).min(Program::EVENTS),
            variables: (program.variable_of[0] as usize).min(Program::ALL_VARIABLES),
            exprs: (program.exprs[0] as usize).min(Program::EXPRESSIONS),
            stmts: (program.stmts[0] as usize).min(Program::STATEMENTS),
            actions: (program.action_of[0] as usize).min(Program::ACTIONS),
            states: (program.state_of[0] as usize).min(Program::STATES),
            moves: program.steps.saturating_add(program.calls).saturating_add(program.acts).min(Program::MOVES),
        }
    }
}

/// One number or row changed, sometimes a few.
pub fn spoil(rng: &mut Rng, program: &mut Program) {
    loop {
        let used = Used::of(program);
        match rng.below(10) {
            0..=5 => number(rng, program, &used),
            6 => count(rng, program),
            7 => swap(rng, program, &used),
            8 => copy(rng, program, &used),
            _ => pair(rng, program, &used),
        }
        if rng.percent(70) {
            break;
        }
    }
}

/// A number in the first rows of a table, each so wide, and the one behind them.
fn any_of<'a, T>(rng: &mut Rng, table: &'a mut [T], rows: usize, wide: usize) -> &'a mut T {
    let length = ((rows + 1) * wide).min(table.len());
    &mut table[rng.below(length)]
}

/// Nudges a number in the rows that a table uses.
fn number(rng: &mut Rng, p: &mut Program, used: &Used) {
    match rng.below(20) {
        0 => any_of(rng, &mut p.event_types, used.events + 1, 1).nudge(rng),
        1 => p.kinds.nudge(rng),
        2 => any_of(rng, &mut p.variable_of, used.variables + 1, 1).nudge(rng),
        3 => any_of(rng, &mut p.variable_type, used.variables + 1, 1).nudge(rng),
        4..=6 => any_of(rng, &mut p.exprs, used.exprs + 1, 3).nudge(rng),
        7..=10 => any_of(rng, &mut p.stmts, used.stmts + 1, 5).nudge(rng),
        11 => any_of(rng, &mut p.inits, 20, 2).nudge(rng),
        12 => any_of(rng, &mut p.action_of, used.actions + 1, 1).nudge(rng),
        13 => any_of(rng, &mut p.action_body, used.actions + 1, 1).nudge(rng),
        14 => any_of(rng, &mut p.state_of, used.states + 1, 1).nudge(rng),
        15 => any_of(rng, &mut p.state_entry, used.states + 1, 1).nudge(rng),
        16 => any_of(rng, &mut p.state_exit, used.states + 1, 1).nudge(rng),
        17 => any_of(rng, &mut p.defers, used.states + 1, Program::EVENTS + 1).nudge(rng),
        18 => any_of(rng, &mut p.moves, used.moves, 3).nudge(rng),
        _ => p.start.0.nudge(rng),
    }
}

/// Nudges how many rows a table has.
fn count(rng: &mut Rng, program: &mut Program) {
    match rng.below(9) {
        0 => program.event_types[0].nudge(rng),
        1 => program.variable_of[0].nudge(rng),
        2 => program.exprs[0].nudge(rng),
        3 => program.stmts[0].nudge(rng),
        4 => program.action_of[0].nudge(rng),
        5 => program.state_of[0].nudge(rng),
        6 => program.steps.nudge(rng),
        7 => program.calls.nudge(rng),
        _ => program.acts.nudge(rng),
    }
}

/// Two rows of a table change places.
fn swap(rng: &mut Rng, program: &mut Program, used: &Used) {
    fn rows<T>(rng: &mut Rng, table: &mut [T], wide: usize, first: usize, count: usize) {
        if count == 0 {
            return;
        }
        let (a, b) = (first + rng.below(count), first + rng.below(count));
        for column in 0..wide {
            table.swap(wide * a + column, wide * b + column);
        }
    }
    match rng.below(5) {
        0 => rows(rng, &mut program.exprs, 3, 1, used.exprs),
        1 => rows(rng, &mut program.stmts, 5, 1, used.stmts),
        2 => rows(rng, &mut program.moves, 3, 0, used.moves),
        3 => rows(rng, &mut program.variable_of, 1, 1, used.variables),
        _ => rows(rng, &mut program.state_of, 1, 1, used.states),
    }
}

/// A number of a table is put in another place of it.
fn copy(rng: &mut Rng, program: &mut Program, used: &Used) {
    fn within<T: Copy>(rng: &mut Rng, table: &mut [T], rows: usize, wide: usize) {
        let number = *any_of(rng, table, rows, wide);
        *any_of(rng, table, rows, wide) = number;
    }
    match rng.below(4) {
        0 => within(rng, &mut program.exprs, used.exprs, 3),
        1 => within(rng, &mut program.stmts, used.stmts, 5),
        2 => within(rng, &mut program.moves, used.moves, 3),
        _ => within(rng, &mut program.state_entry, used.states, 1),
    }
}

/// A `new` begins at another pair, or has more or fewer.
fn pair(rng: &mut Rng, program: &mut Program, used: &Used) {
    let news: Vec<usize> = (1..=used.stmts).filter(|stmt| program.stmts[5 * stmt] == 2).collect();
    if let Some(new) = rng.maybe_pick(&news) {
        program.stmts[5 * new + rng.between(3, 4)].nudge(rng);
    }
}

/// Numbers in rows that no count reaches: they change nothing.
pub fn fill_unused(rng: &mut Rng, p: &mut Program) {
    fn behind<T>(rng: &mut Rng, table: &mut [T], used: usize, number: impl Fn(u64) -> T) {
        for place in table.iter_mut().skip(used) {
            if rng.percent(30) {
                *place = number(rng.any());
            }
        }
    }
    let used = Used::of(p);
    let pairs: usize = (1..=used.stmts).filter(|stmt| p.stmts[5 * stmt] == 2).map(|stmt| p.stmts[5 * stmt + 4] as usize).sum();
    behind(rng, &mut p.event_types, used.events + 1, |x| x as u8);
    behind(rng, &mut p.variable_of, used.variables + 1, |x| x as u16);
    behind(rng, &mut p.variable_type, used.variables + 1, |x| x as u8);
    behind(rng, &mut p.exprs, 3 * (used.exprs + 1), |x| x as u32);
    behind(rng, &mut p.stmts, 5 * (used.stmts + 1), |x| x as u16);
    behind(rng, &mut p.inits[..2 * (pairs + 50).min(Program::PAIRS)], 2 * pairs, |x| x as u16);
    behind(rng, &mut p.action_of, used.actions + 1, |x| x as u8);
    behind(rng, &mut p.action_body, used.actions + 1, |x| x as u16);
    behind(rng, &mut p.state_of, used.states + 1, |x| x as u8);
    behind(rng, &mut p.state_exit, used.states + 1, |x| x as u16);
    behind(rng, &mut p.defers, (used.states + 1) * (Program::EVENTS + 1), |x| x as u8);
    behind(rng, &mut p.moves, 3 * used.moves, |x| x as u8);
}

/// Any number in every place, small ones more often than they would come.
pub fn any_numbers(rng: &mut Rng, p: &mut Program) {
    fn fill<T>(rng: &mut Rng, table: &mut [T], small: u64, number: impl Fn(u64) -> T) {
        for place in table {
            let any = rng.any();
            *place = number(if any & 1 == 0 { any >> 1 } else { (any >> 1) % small });
        }
    }
    fill(rng, &mut p.event_types, 6, |x| x as u8);
    fill(rng, &mut p.variable_of, 4, |x| x as u16);
    fill(rng, &mut p.variable_type, 6, |x| x as u8);
    fill(rng, &mut p.exprs, 15, |x| x as u32);
    fill(rng, &mut p.stmts, 13, |x| x as u16);
    fill(rng, &mut p.inits, 20, |x| x as u16);
    fill(rng, &mut p.action_of, 4, |x| x as u8);
    fill(rng, &mut p.action_body, 9, |x| x as u16);
    fill(rng, &mut p.state_of, 4, |x| x as u8);
    fill(rng, &mut p.state_entry, 9, |x| x as u16);
    fill(rng, &mut p.state_exit, 9, |x| x as u16);
    fill(rng, &mut p.defers, 2, |x| x as u8);
    fill(rng, &mut p.moves, 5, |x| x as u8);
    p.kinds = rng.below(20) as u8;
    (p.steps, p.calls, p.acts) = (rng.any() as usize, rng.below(9), rng.any() as usize);
    p.start.0 = rng.below(4) as u8;
}
