//! What is handed in before anything is damaged: sound programs, configurations that are accepted, lists of choices.

mod configs;
mod lists;
mod programs;
mod statements;

pub use configs::{any_config, walk, walked_config};
pub use lists::{any_list, room_for};
pub use programs::sound_program;

/// How a case came to what it hands in, for the tally.
pub type Sort = &'static str;
