//! Lists of choices as they are lent, and how long the output buffer is.

use bench::plain::{Choice, Config, Program, CHOICES};
use bench::written;

use super::{walk, Sort};
use crate::rng::Rng;

/// Any number is a choice.
fn wild(rng: &mut Rng) -> u32 {
    match rng.below(5) {
        0 => rng.pick(&[0, 1, 255, 256, 257, 65_535 * 256, 65_536 * 256, u32::MAX]),
        1 => rng.any() as u32,
        2 => rng.below(256) as u32,
        _ => (rng.between(1, 40) * 256 + rng.below(256)) as u32,
    }
}

/// A list, walked from the configuration where there is one: mostly of choices that take steps.
pub fn any_list(rng: &mut Rng, accepted: Option<(&Program, &Config)>) -> (Sort, Vec<u32>) {
    let steps = |rng: &mut Rng, length: usize| -> Vec<u32> {
        let Some((program, config)) = accepted else {
            return (0..length.min(9)).map(|_| 256 + rng.below(512) as u32).collect();
        };
        walk(rng, program, &mut config.clone(), length).iter().map(written::choice).collect()
    };
    let live = |rng: &mut Rng| -> u32 {
        let numbers: Vec<u32> = accepted.iter().flat_map(|(_, config)| config.numbers).filter(|&number| number != 0).collect();
        written::choice(&Choice { machine: rng.maybe_pick(&numbers).unwrap_or(1), bits: rng.any() as u8 })
    };
    let length = if rng.percent(10) { rng.between(60, 600) } else { rng.between(0, 40) };
    match rng.below(20) {
        0..=7 => ("walked", steps(rng, length)),
        8..=11 => {
            let mut list = steps(rng, length);
            list.push(if rng.percent(70) { live(rng) } else { wild(rng) });
            ("walked, and one more", list)
        }
        12..=13 => {
            let mut list = steps(rng, length);
            let place = rng.below(list.len() + 1);
            let stray = if rng.percent(50) { live(rng) } else { wild(rng) };
            list.insert(place, stray);
            ("walked, with a stray one", list)
        }
        14..=15 => ("of live machines", (0..length.min(12)).map(|_| live(rng)).collect()),
        16 => ("any numbers", (0..length).map(|_| wild(rng)).collect()),
        17 => ("empty", Vec::new()),
        18 => {
            let mut list = steps(rng, CHOICES);
            let length = CHOICES + rng.pick(&[0, 0, 1, 1, 5_000]) - rng.below(2);
            while list.len() < length {
                list.push(live(rng));
            }
            ("4,095 choices and more", list)
        }
        _ => ("one choice", vec![live(rng)]),
    }
}

/// The length of the output buffer for a list: shorter, as long, longer.
pub fn room_for(rng: &mut Rng, length: usize) -> usize {
    match rng.below(8) {
        0 => length.saturating_sub(1),
        1 => rng.below(length + 1),
        2..=4 => length,
        5 => length + 1,
        _ => length + rng.below(70),
    }
}
