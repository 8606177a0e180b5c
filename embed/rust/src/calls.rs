//! The functions of the static library, and a safe function over each: the only unsafe code of the crate.
//!
//! Each function of the library is proved for everything that it can be handed, so that a caller has nothing to see to but what C cannot say
//! and Rust does: that what is lent is there, is as long as said, and is lent to nobody else. That is what the reasons below speak of.

use crate::raw::{Config, EndNumbers, Live, LiveNumbers, LoadNumbers, MachineNumbers, PairNumbers, Program, StartNumbers, StepNumbers, ValueNumbers};

extern "C" {
    fn namakviz_load(text: *const u8, length: usize) -> LoadNumbers;
    fn namakviz_start(program: Program) -> StartNumbers;
    fn namakviz_step(program: &Program, c: &mut Config, machine: Live, bits: u8) -> StepNumbers;
    fn namakviz_run(program: &Program, c: &mut Config, choices: *const u32, length: usize, rules: &mut [u8; Program::CHOICES]) -> EndNumbers;
    fn namakviz_regroup(program: Program, c: Config, choices: *const u32, length: usize, out: *mut u32, places: usize) -> u8;
    fn namakviz_fit(program: Program, c: Config) -> u8;
    fn namakviz_live(program: Program, c: Config) -> LiveNumbers;
    fn namakviz_machine(program: Program, c: Config, machine: Live) -> MachineNumbers;
    fn namakviz_value(x: u64) -> ValueNumbers;
    fn namakviz_pair(x: u64) -> PairNumbers;
}

/// The loader: the answer and its line; at 0 the program and the choices.
pub fn load(text: &[u8]) -> LoadNumbers {
    // SAFETY: the text lies there for this length, and is only read.
    unsafe { namakviz_load(text.as_ptr(), text.len()) }
}

/// The start configuration, or answer 20 with the configuration of no machine.
pub fn start(program: &Program) -> StartNumbers {
    // SAFETY: the program goes over by value.
    unsafe { namakviz_start(*program) }
}

/// The step: the configuration is changed in its place, and is as it was where the answer is not 0.
pub fn step(program: &Program, config: &mut Config, machine: Live, bits: u8) -> StepNumbers {
    // SAFETY: references are valid, and the lent configuration is nobody else's.
    unsafe { namakviz_step(program, config, machine, bits) }
}

/// The run: the configuration becomes that of the steps taken, whose rules are written from the front of the row.
pub fn run(program: &Program, config: &mut Config, choices: &[u32], rules: &mut [u8; Program::CHOICES]) -> EndNumbers {
    // SAFETY: references are valid, what is lent to be changed is nobody else's, and the choices lie there for this length.
    unsafe { namakviz_run(program, config, choices.as_ptr(), choices.len(), rules) }
}

/// The regrouper: at 0 the list is written from the front of `out`, else nothing is written.
pub fn regroup(program: &Program, config: &Config, choices: &[u32], out: &mut [u32]) -> u8 {
    // SAFETY: program and configuration go over by value; both rows lie there for their lengths, and `out` is nobody else's.
    unsafe { namakviz_regroup(*program, *config, choices.as_ptr(), choices.len(), out.as_mut_ptr(), out.len()) }
}

/// 0, or 20 where the program or the configuration is not one.
pub fn fit(program: &Program, config: &Config) -> u8 {
    // SAFETY: both go over by value.
    unsafe { namakviz_fit(*program, *config) }
}

/// The live numbers, or answer 20.
pub fn live(program: &Program, config: &Config) -> LiveNumbers {
    // SAFETY: both go over by value.
    unsafe { namakviz_live(*program, *config) }
}

/// The machine of a live number, or answer 20, or 19 where none has this number.
pub fn machine(program: &Program, config: &Config, machine: Live) -> MachineNumbers {
    // SAFETY: all go over by value.
    unsafe { namakviz_machine(*program, *config, machine) }
}

/// The value of a number.
pub fn value(x: u64) -> ValueNumbers {
    // SAFETY: a number goes over by value.
    unsafe { namakviz_value(x) }
}

/// The pair of a number.
pub fn pair(x: u64) -> PairNumbers {
    // SAFETY: a number goes over by value.
    unsafe { namakviz_pair(x) }
}
