//! The bench: the proved runtime against the peer.
//!
//!     bench             the table of times
//!     bench growth      how the time of a step grows with choices, rooms and heights
//!     bench stack       the stack that each function uses

mod measures;

use std::process::ExitCode;

fn main() -> ExitCode {
    match std::env::args().nth(1).as_deref() {
        None => measures::times(),
        Some("growth") => measures::growth(),
        Some("stack") => measures::stacks(),
        Some(_) => {
            eprintln!("usage: bench [growth|stack]");
            return ExitCode::from(2);
        }
    }
    ExitCode::SUCCESS
}
