//! The peer: document 01 as a plain Rust program, with configurations changed in place.
//!
//! It was written from the document and shares nothing with the proved runtime. It is what a Rust programmer would write for the same work: enums for values,
//! expressions and statements, vectors for tables, stacks and queues, a table of what each state does on each event, and no copy that the work does not need.

mod load;
pub mod machine;
pub mod program;
mod regroup;
mod run;
mod sound;

pub use load::{load, Refusal};
pub use machine::{accepts, start, Config};
pub use program::{Choice, Program};
pub use regroup::regroup;
pub use run::{checked_step, run, step, Ended, Rule};
pub use sound::{sound, sound_tables};

/// The number of a refusal, from document 01's table.
pub type Answer = u8;

pub const TEXT: usize = 60_000;
pub const EVENTS: usize = 64;
pub const KINDS: usize = 16;
pub const VARIABLES: usize = 16;
pub const EXPRESSIONS: usize = 1_024;
pub const STATEMENTS: usize = 1_024;
pub const ACTIONS: usize = 64;
pub const STATES: usize = 64;
pub const CHOICES: usize = 4_096;
pub const ROOMS: usize = 32;
pub const STACK: usize = 8;
pub const QUEUE: usize = 16;
pub const HEIGHT: usize = 32;
pub const STARS: usize = 8;
pub const LIVE_NUMBERS: u32 = 65_535;
