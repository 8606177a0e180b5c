//! The answers other than 0, with their numbers.

use std::error::Error;
use std::fmt;

/// Why something was refused. docs/ANSWERS.md has what each answer means and what to do.
#[derive(Clone, Copy, PartialEq, Eq, Hash, Debug)]
pub enum Answer {
    TextTooLong = 1,
    NotInForm = 2,
    OutOfRange = 3,
    NotThere = 4,
    NotLower = 5,
    Doubled = 6,
    ExitLeaves = 7,
    TooHigh = 8,
    NoState = 9,
    AssertionFalse = 10,
    SendToUndefined = 11,
    SendToNotLive = 12,
    StackEmpty = 13,
    NotABool = 14,
    WrongType = 15,
    QueueFull = 16,
    StackFull = 17,
    NoRoom = 18,
    UnableToStep = 19,
    NotAccepted = 20,
    BufferTooShort = 21,
    TookNoStep = 22,
}

impl Answer {
    /// All of them, in the order of their numbers.
    pub const ALL: [Answer; 22] = [
        Answer::TextTooLong,
        Answer::NotInForm,
        Answer::OutOfRange,
        Answer::NotThere,
        Answer::NotLower,
        Answer::Doubled,
        Answer::ExitLeaves,
        Answer::TooHigh,
        Answer::NoState,
        Answer::AssertionFalse,
        Answer::SendToUndefined,
        Answer::SendToNotLive,
        Answer::StackEmpty,
        Answer::NotABool,
        Answer::WrongType,
        Answer::QueueFull,
        Answer::StackFull,
        Answer::NoRoom,
        Answer::UnableToStep,
        Answer::NotAccepted,
        Answer::BufferTooShort,
        Answer::TookNoStep,
    ];

    /// Its number.
    pub fn number(self) -> u8 {
        self as u8
    }

    /// What it says, in the words of docs/ANSWERS.md.
    pub fn words(self) -> &'static str {
        match self {
            Answer::TextTooLong => "text over 60,000 bytes",
            Answer::NotInForm => "a line not in the form, or out of order",
            Answer::OutOfRange => "a number out of sequence or out of range",
            Answer::NotThere => "a reference to something absent, or of another kind's",
            Answer::NotLower => "a part not lower than its whole, or named twice",
            Answer::Doubled => "two transitions, or two actions, for one state and event",
            Answer::ExitLeaves => "an exit with raise, return or leave",
            Answer::TooHigh => "too high, or too many stars",
            Answer::NoState => "a machine kind with no state",
            Answer::AssertionFalse => "assertion false",
            Answer::SendToUndefined => "send to the undefined value",
            Answer::SendToNotLive => "send to a number not live",
            Answer::StackEmpty => "call stack empty",
            Answer::NotABool => "condition not a bool",
            Answer::WrongType => "a value of the wrong type",
            Answer::QueueFull => "queue full",
            Answer::StackFull => "call stack full",
            Answer::NoRoom => "no free room, or live numbers spent",
            Answer::UnableToStep => "the machine cannot step",
            Answer::NotAccepted => "what was handed in is not a configuration, or not a program",
            Answer::BufferTooShort => "output buffer shorter than the list",
            Answer::TookNoStep => "a choice before the last took no step",
        }
    }

    /// What the library answered: 0 is no refusal.
    pub(crate) fn of(number: u8) -> Result<(), Answer> {
        match number {
            0 => Ok(()),
            _ => Err(Answer::ALL[usize::from(number) - 1]),
        }
    }
}

impl fmt::Display for Answer {
    fn fmt(&self, f: &mut fmt::Formatter) -> fmt::Result {
        write!(f, "answer {}: {}", self.number(), self.words())
    }
}

impl Error for Answer {}
