//! Choices.

use crate::raw::Live;

/// A machine that shall step, and the bits that its stars are.
#[derive(Clone, Copy, PartialEq, Eq, Hash, Debug)]
pub struct Choice {
    pub machine: Live,
    pub bits: u8,
}

impl Choice {
    /// The largest machine that a choice's number has room for. It is no live number, nor is any above it.
    const LARGEST: u32 = u32::MAX / 256;

    /// The choice as the library takes it: 256 times the machine, plus the bits.
    pub fn number(self) -> u32 {
        self.machine.0.min(Choice::LARGEST) * 256 + u32::from(self.bits)
    }

    /// The choice of a number: any number is one.
    pub fn of(number: u32) -> Choice {
        Choice { machine: Live(number / 256), bits: (number % 256) as u8 }
    }
}

/// The numbers of a list.
pub(crate) fn numbers(choices: &[Choice]) -> Vec<u32> {
    choices.iter().map(|choice| choice.number()).collect()
}
