//! The static library as it is: plain numbers in the layout of C, and its functions over them.
//!
//! The structs are those of crates/values, crates/tables, crates/configs and crates/exports, field by field; what the numbers mean stands
//! there. Every field is open and any number may stand in it: each function tests what it is handed, and answers 20 where a program or a
//! configuration is not one.

pub use crate::calls::{fit, live, load, machine, pair, regroup, run, start, step, value};

/// A live machine's number.
#[repr(C)]
#[derive(Clone, Copy, PartialEq, Eq, PartialOrd, Ord, Hash, Debug)]
pub struct Live(pub u32);

/// A machine kind's number.
#[repr(C)]
#[derive(Clone, Copy, PartialEq, Eq, PartialOrd, Ord, Hash, Debug)]
pub struct Kind(pub u8);

/// The tables of a program: 100 KB.
#[repr(C)]
#[derive(Clone, Copy, PartialEq, Eq, Debug)]
pub struct Program {
    pub event_types: [u8; Program::EVENTS + 1],
    pub kinds: u8,
    pub variable_of: [u16; Program::ALL_VARIABLES + 1],
    pub variable_type: [u8; Program::ALL_VARIABLES + 1],
    pub exprs: [u32; 3 * (Program::EXPRESSIONS + 1)],
    pub stmts: [u16; 5 * (Program::STATEMENTS + 1)],
    pub inits: [u16; 2 * Program::PAIRS],
    pub action_of: [u8; Program::ACTIONS + 1],
    pub action_body: [u16; Program::ACTIONS + 1],
    pub state_of: [u8; Program::STATES + 1],
    pub state_entry: [u16; Program::STATES + 1],
    pub state_exit: [u16; Program::STATES + 1],
    pub defers: [u8; (Program::STATES + 1) * (Program::EVENTS + 1)],
    pub moves: [u8; 3 * Program::MOVES],
    pub steps: usize,
    pub calls: usize,
    pub acts: usize,
    pub start: Kind,
}

/// The sizes.
impl Program {
    pub const TEXT: usize = 60000;
    pub const EVENTS: usize = 64;
    pub const KINDS: usize = 16;
    pub const VARIABLES: usize = 16;
    pub const ALL_VARIABLES: usize = Program::KINDS * Program::VARIABLES;
    pub const THIS: usize = Program::VARIABLES;
    pub const MSG: usize = Program::VARIABLES + 1;
    pub const ARG: usize = Program::VARIABLES + 2;
    pub const EXPRESSIONS: usize = 1024;
    pub const STATEMENTS: usize = 1024;
    pub const PAIRS: usize = 15000;
    pub const ACTIONS: usize = 64;
    pub const STATES: usize = 64;
    pub const MOVES: usize = 4096;
    pub const CHOICES: usize = 4096;
    pub const ROOMS: usize = 32;
    pub const STACK: usize = 8;
    pub const QUEUE: usize = 16;
    pub const ROW: usize = 33;
    pub const HEIGHT: usize = 32;
    pub const STARS: usize = 8;
    pub const LIVE_NUMBERS: usize = 65536;
}

/// A room of a configuration: free where `this` is 0.
#[repr(C)]
#[derive(Clone, Copy, PartialEq, Eq, Debug)]
pub struct Room {
    pub this: Live,
    pub kind: Kind,
    pub depth: usize,
    pub states: [u8; Program::STACK],
    pub maps: [u8; Program::STACK * Program::EVENTS],
    pub values: [u64; Program::VARIABLES + 3],
    pub count: usize,
    pub parts: [u16; Program::ROW],
    pub held: u64,
    pub waiting: usize,
    pub pairs: [u64; Program::QUEUE],
}

/// A configuration: 29 KB.
#[repr(C)]
#[derive(Clone, Copy, PartialEq, Eq, Debug)]
pub struct Config {
    pub next: u32,
    pub rooms: [Room; Program::ROOMS],
}

/// What a text is loaded as.
#[repr(C)]
#[derive(Clone, Copy, PartialEq, Eq, Debug)]
pub struct LoadNumbers {
    pub program: Program,
    pub choices: [u32; Program::CHOICES],
    pub count: usize,
    pub answer: u8,
    pub line: usize,
}

/// What a program starts with.
#[repr(C)]
#[derive(Clone, Copy, PartialEq, Eq, Debug)]
pub struct StartNumbers {
    pub config: Config,
    pub answer: u8,
}

/// A step: its answer, and the number of its rule where that is 0.
#[repr(C)]
#[derive(Clone, Copy, PartialEq, Eq, Debug)]
pub struct StepNumbers {
    pub answer: u8,
    pub rule: u8,
}

/// How a run ended.
#[repr(C)]
#[derive(Clone, Copy, PartialEq, Eq, Debug)]
pub struct EndNumbers {
    pub answer: u8,
    pub place: usize,
    pub steps: usize,
}

/// The live numbers, by room; places behind the count are 0.
#[repr(C)]
#[derive(Clone, Copy, PartialEq, Eq, Debug)]
pub struct LiveNumbers {
    pub answer: u8,
    pub count: usize,
    pub machines: [u32; Program::ROOMS],
}

/// What a machine is; all else is 0 where the answer is not.
#[repr(C)]
#[derive(Clone, Copy, PartialEq, Eq, Debug)]
pub struct MachineNumbers {
    pub answer: u8,
    pub kind: Kind,
    pub depth: usize,
    pub state: u8,
    pub variables: usize,
    pub values: [u64; Program::VARIABLES],
    pub waiting: usize,
    pub pairs: [u64; Program::QUEUE],
}

/// A value: 0 undefined, 1 bool, 2 int, 3 event, 4 id, and which one.
#[repr(C)]
#[derive(Clone, Copy, PartialEq, Eq, Debug)]
pub struct ValueNumbers {
    pub kind: u8,
    pub number: i64,
}

/// A pair: its event, and its value as a number for [`value`].
#[repr(C)]
#[derive(Clone, Copy, PartialEq, Eq, Debug)]
pub struct PairNumbers {
    pub event: u32,
    pub value: u64,
}
