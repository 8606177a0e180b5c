//! Machines and configurations, the start configuration, and when a configuration is one.

use super::program::{Number, Program, Stmt, Type, Value};
use super::{EVENTS, HEIGHT, LIVE_NUMBERS, QUEUE, ROOMS, STACK, VARIABLES};

#[derive(Clone, Copy, PartialEq, Eq, Debug)]
pub enum Entry {
    Nothing,
    Deferred,
    Action(u8),
}

#[derive(Clone, PartialEq, Eq, Debug)]
pub struct Frame {
    pub state: u8,
    /// event e at e - 1
    pub map: [Entry; EVENTS],
}

#[derive(Clone, Copy, PartialEq, Eq, Debug)]
pub struct Pair {
    pub event: u8,
    pub value: Value,
}

#[derive(Clone, Copy, PartialEq, Eq, Debug)]
pub enum Pending {
    Nothing,
    Return,
    Raise(Pair),
}

#[derive(Clone, PartialEq, Eq, Debug)]
pub struct Machine {
    pub kind: u8,
    pub this: u32,
    /// the top is the last
    pub stack: Vec<Frame>,
    pub variables: [Value; VARIABLES],
    pub msg: Value,
    pub arg: Value,
    /// the parts, the head is the last
    pub row: Vec<Number>,
    pub pending: Pending,
    pub queue: Vec<Pair>,
}

impl Machine {
    /// A machine at the entry of its kind's first state.
    pub fn new(program: &Program, kind: Number, this: u32) -> Machine {
        let state = program.initial[kind as usize];
        let mut machine = Machine {
            kind: kind as u8,
            this,
            stack: vec![Frame { state: state as u8, map: [Entry::Nothing; EVENTS] }],
            variables: [Value::Undefined; VARIABLES],
            msg: Value::Undefined,
            arg: Value::Undefined,
            row: Vec::new(),
            pending: Pending::Nothing,
            queue: Vec::new(),
        };
        machine.remain(program, program.tables.states[state as usize].entry, Pending::Nothing);
        machine
    }

    /// One statement, and what is pending behind it, take the place of all that remains.
    pub fn remain(&mut self, program: &Program, stmt: Number, pending: Pending) {
        self.row.clear();
        self.row.push(stmt);
        self.pending = pending;
        self.settle(program);
    }

    /// A seq at the head is split at once; a lone skip with nothing pending is kept as the empty row.
    pub fn settle(&mut self, program: &Program) {
        while let Some(&head) = self.row.last() {
            match *program.stmt(head) {
                Stmt::Seq { first, second } => {
                    self.row.pop();
                    self.row.push(second);
                    self.row.push(first);
                }
                Stmt::Skip if self.row.len() == 1 && self.pending == Pending::Nothing => self.row.clear(),
                _ => break,
            }
        }
    }

    /// The head is finished: it becomes a skip.
    pub fn finish_head(&mut self) {
        self.row.pop();
        if !self.row.is_empty() || self.pending != Pending::Nothing {
            self.row.push(0);
        }
    }
}

#[derive(Clone, PartialEq, Eq, Debug)]
pub struct Config {
    /// the live number in each room, 0 where it is free
    pub numbers: [u32; ROOMS],
    pub rooms: [Option<Machine>; ROOMS],
    pub next: u32,
}

impl Config {
    pub fn room_of(&self, number: u32) -> Option<usize> {
        if number == 0 {
            return None;
        }
        self.numbers.iter().position(|&live| live == number)
    }

    pub fn free_room(&self) -> Option<usize> {
        self.numbers.iter().position(|&live| live == 0)
    }

    pub fn live(&self) -> usize {
        self.numbers.iter().filter(|&&live| live != 0).count()
    }
}

/// The start configuration: live number 1 in the first room.
pub fn start(program: &Program) -> Config {
    let mut config = Config { numbers: [0; ROOMS], rooms: [const { None }; ROOMS], next: 2 };
    config.numbers[0] = 1;
    config.rooms[0] = Some(Machine::new(program, program.tables.start, 1));
    config
}

/// Whether the configuration is one of this program.
pub fn accepts(program: &Program, config: &Config) -> bool {
    (1..=LIVE_NUMBERS + 1).contains(&config.next)
        && config.numbers.iter().enumerate().all(|(room, &number)| number == 0 || !config.numbers[..room].contains(&number))
        && config.numbers.iter().zip(&config.rooms).all(|(&number, room)| match room {
            None => number == 0,
            Some(machine) => number == machine.this && machine_accepted(program, config.next, machine),
        })
}

fn machine_accepted(program: &Program, next: u32, machine: &Machine) -> bool {
    let kinds = program.tables.kinds;
    (1..=kinds).contains(&(machine.kind as usize))
        && (1..next).contains(&machine.this)
        && stack_accepted(program, machine)
        && variables_accepted(program, next, machine)
        && machine.msg.suits(Type::Event)
        && value_accepted(program, next, machine.msg)
        && value_accepted(program, next, machine.arg)
        && row_accepted(program, machine)
        && match machine.pending {
            Pending::Raise(pair) => pair_accepted(program, next, pair),
            _ => true,
        }
        && queue_accepted(program, next, machine)
}

fn value_accepted(program: &Program, next: u32, value: Value) -> bool {
    match value {
        Value::Event(event) => (1..=program.tables.events()).contains(&(event as usize)),
        Value::Id(number) => (1..next).contains(&number),
        _ => true,
    }
}

fn pair_accepted(program: &Program, next: u32, pair: Pair) -> bool {
    (1..=program.tables.events()).contains(&(pair.event as usize))
        && pair.value.suits(program.tables.events[pair.event as usize])
        && value_accepted(program, next, pair.value)
}

fn queue_accepted(program: &Program, next: u32, machine: &Machine) -> bool {
    let queue = &machine.queue;
    queue.len() <= QUEUE && queue.iter().enumerate().all(|(place, pair)| pair_accepted(program, next, *pair) && !queue[..place].contains(pair))
}

fn stack_accepted(program: &Program, machine: &Machine) -> bool {
    let tables = &program.tables;
    let of_kind = |of: Number| of == Number::from(machine.kind);
    machine.stack.len() <= STACK
        && machine.stack.iter().all(|frame| {
            let (events, rest) = frame.map.split_at(tables.events());
            let state = frame.state as usize;
            (1..tables.states.len()).contains(&state)
                && of_kind(tables.states[state].of)
                && events.iter().all(|entry| match *entry {
                    Entry::Action(action) => {
                        let action = action as usize;
                        (1..tables.actions.len()).contains(&action) && of_kind(tables.actions[action].of)
                    }
                    _ => true,
                })
                && rest.iter().all(|entry| *entry == Entry::Nothing)
        })
}

fn variables_accepted(program: &Program, next: u32, machine: &Machine) -> bool {
    let own = &program.variables_of[machine.kind as usize];
    let (used, unused) = machine.variables.split_at(own.len());
    used.iter().zip(own).all(|(&value, &variable)| value.suits(program.variable_type(variable)) && value_accepted(program, next, value))
        && unused.iter().all(|value| *value == Value::Undefined)
}

/// The parts serve the kind; no seq at the head, no lone skip with nothing pending; for each part, height plus parts behind it is at most 33.
fn row_accepted(program: &Program, machine: &Machine) -> bool {
    let row = &machine.row;
    let pending = usize::from(machine.pending != Pending::Nothing);
    let serves = |part: Number| part == 0 || program.served.get(part as usize) == Some(&machine.kind);
    if !row.iter().all(|&part| serves(part)) {
        return false;
    }
    let head_in_form = row.last().is_none_or(|&head| match program.stmt(head) {
        Stmt::Seq { .. } => false,
        Stmt::Skip => row.len() > 1 || pending == 1,
        _ => true,
    });
    head_in_form && row.iter().enumerate().all(|(behind, &part)| program.heights[part as usize] as usize + behind + pending <= HEIGHT + 1)
}
