//! The fuzzer: random and damaged texts, programs, configurations and lists handed to the static library.
//!
//!     fuzz COUNT SEED FIRST EVERY    COUNT cases from number FIRST on; each EVERY-th goes to the second program too (0: none)
//!
//! A case depends on the seed and its number alone, so that `fuzz 1 SEED NUMBER 1` is that case again.

mod case;
mod check;
mod lend;
mod lines;
mod make;
mod peer;
mod rng;
mod rooms;
mod second;
mod spoil;
mod tabled;
mod tally;
mod told;
mod work;

use std::process::ExitCode;

use work::Work;

fn main() -> ExitCode {
    let arguments: Option<Vec<u64>> = std::env::args().skip(1).map(|word| word.parse().ok()).collect();
    match arguments.as_deref() {
        Some(&[count, seed, first, every]) => work::all(Work { count, seed, first, every }),
        _ => {
            eprintln!("usage: fuzz COUNT SEED FIRST EVERY");
            ExitCode::from(2)
        }
    }
}
