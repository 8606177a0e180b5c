//! Damages: of texts, of programs as lines and as tables, of configurations. Some leave what they touch as good as it was.

mod configs;
mod lines;
mod tables;
mod texts;

pub use configs::{any_numbers as any_config, spoil as spoil_config};
pub use lines::spoil as spoil_lines;
pub use tables::{any_numbers as any_program, fill_unused, spoil as spoil_program};
pub use texts::{any_text, full_text, many_choices, spoil as spoil_text};

use crate::rng::Rng;

/// A number near another, at a bound, or any number, of a word whose largest is `widest`.
fn nudged(rng: &mut Rng, number: u64, widest: u64) -> u64 {
    let changed = match rng.below(9) {
        0..=1 => number.wrapping_add(1),
        2..=3 => number.wrapping_sub(1),
        4 => rng.pick(&[0, 1, widest, widest - 1]),
        5 => rng.pick(&[8, 9, 16, 17, 32, 33, 34, 64, 65, 254, 255, 256, 1024, 1025, 4096, 4097, 15000, 65535, 65536, u64::MAX]),
        6 => number ^ (1 << rng.below(64)),
        7 => rng.below(70) as u64,
        _ => rng.any(),
    };
    changed & widest
}

/// The same in place.
trait Nudge {
    fn nudge(&mut self, rng: &mut Rng);
}

macro_rules! nudge {
    ($($word:ty),*) => {
        $(impl Nudge for $word {
            fn nudge(&mut self, rng: &mut Rng) {
                *self = nudged(rng, *self as u64, <$word>::MAX as u64) as $word;
            }
        })*
    };
}

nudge!(u8, u16, u32, u64, usize);
