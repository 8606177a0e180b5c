//! The proved runtime for controllers written in P, for a program in Rust.
//!
//! A controller loads a text, starts, and lends its configuration for each step:
//!
//! ```no_run
//! # fn main() -> Result<(), Box<dyn std::error::Error>> {
//! let (program, choices) = namakviz::load(&std::fs::read("sessions/story-override.txt")?)?;
//! let mut config = program.start()?;
//! for choice in &choices {
//!     let rule = config.step(&program, choice.machine, choice.bits)?;
//!     println!("machine={} rule={rule}", choice.machine.0);
//! }
//! # Ok(())
//! # }
//! ```
//!
//! Nothing has to be seen to before a call. What does not fit is refused with its [`Answer`], and nothing is changed. The library keeps
//! nothing between calls. A call uses less than 1 MB of stack.

#![deny(unsafe_code)]

mod answers;
#[allow(unsafe_code)]
mod calls;
mod choices;
mod configs;
mod programs;
pub mod raw;
mod rules;
mod values;

pub use answers::Answer;
pub use choices::Choice;
pub use configs::{Config, Machine, Run, Stop};
pub use programs::{load, Program, Refusal};
pub use raw::{Kind, Live};
pub use rules::Rule;
pub use values::{Pair, Value};
