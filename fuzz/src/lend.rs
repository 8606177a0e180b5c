//! The calls, with what they are lent between guards: a write beside it would be seen.

use namakviz::raw::{self, Config, EndNumbers, Live, LoadNumbers, Program, StartNumbers, StepNumbers};

use crate::check::{demand, Checked};

const GUARD: u64 = 0x5eed_0f5a_17a5_a1fe;

/// What stands in a place of `rules` that nothing was written to; no rule has this number.
pub const NO_RULE: u8 = 0xee;

/// The word of `out` at a place where nothing was written.
pub fn unwritten(place: usize) -> u32 {
    0xfade_0000_u32.wrapping_add(place as u32)
}

#[repr(C)]
struct Guarded<T> {
    before: [u64; 16],
    lent: T,
    behind: [u64; 16],
}

impl<T> Guarded<T> {
    fn new(lent: T) -> Box<Guarded<T>> {
        Box::new(Guarded { before: [GUARD; 16], lent, behind: [GUARD; 16] })
    }

    fn intact(&self) -> bool {
        self.before.iter().chain(&self.behind).all(|&word| word == GUARD)
    }
}

pub fn load(text: &[u8]) -> Checked<Box<LoadNumbers>> {
    let lent = text.to_vec();
    let loaded = Box::new(raw::load(&lent));
    demand(lent == text, "load: the text is as it was")?;
    Ok(loaded)
}

pub fn start(program: &Program) -> Box<StartNumbers> {
    Box::new(raw::start(program))
}

/// A step: what it answers, and the configuration behind it.
pub fn step(program: &Program, config: &Config, machine: u32, bits: u8) -> Checked<(StepNumbers, Box<Config>)> {
    let mut held = Guarded::new(*config);
    let stepped = raw::step(program, &mut held.lent, Live(machine), bits);
    demand(held.intact(), "step: nothing is written beside the configuration")?;
    Ok((stepped, Box::new(held.lent)))
}

/// A run: its end, the whole row of rules, and the configuration behind it.
pub struct Ran {
    pub end: EndNumbers,
    pub rules: [u8; Program::CHOICES],
    pub config: Box<Config>,
}

pub fn run(program: &Program, config: &Config, list: &[u32]) -> Checked<Ran> {
    let mut held = Guarded::new(*config);
    let mut rules = Guarded::new([NO_RULE; Program::CHOICES]);
    let lent = list.to_vec();
    let end = raw::run(program, &mut held.lent, &lent, &mut rules.lent);
    demand(lent == list, "run: the list is as it was")?;
    demand(held.intact(), "run: nothing is written beside the configuration")?;
    demand(rules.intact(), "run: nothing is written beside the rules")?;
    Ok(Ran { end, rules: rules.lent, config: Box::new(held.lent) })
}

/// A regrouping: its answer, and the whole output buffer of this length.
pub fn regroup(program: &Program, config: &Config, list: &[u32], room: usize) -> Checked<(u8, Vec<u32>)> {
    const BESIDE: usize = 32;
    let before: Vec<u32> = (0..room + 2 * BESIDE).map(|place| unwritten(place.wrapping_sub(BESIDE))).collect();
    let mut held = before.clone();
    let lent = list.to_vec();
    let answer = raw::regroup(program, config, &lent, &mut held[BESIDE..BESIDE + room]);
    demand(lent == list, "regroup: the list is as it was")?;
    demand(held[..BESIDE] == before[..BESIDE], "regroup: nothing is written before the buffer")?;
    demand(held[BESIDE + room..] == before[BESIDE + room..], "regroup: nothing is written behind the buffer")?;
    Ok((answer, held[BESIDE..BESIDE + room].to_vec()))
}
