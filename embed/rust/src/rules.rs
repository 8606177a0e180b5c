//! The rules of P, with their numbers.

use std::fmt;

/// The rule that a step took.
#[derive(Clone, Copy, PartialEq, Eq, Hash, Debug)]
pub enum Rule {
    Assign = 1,
    New = 2,
    Delete = 3,
    Assert = 4,
    Seq = 5,
    If = 6,
    While = 7,
    Send = 8,
    Raise = 9,
    Leave = 10,
    Return = 11,
    Dequeue = 12,
    Step = 13,
    Action = 14,
    Call = 15,
    Pop1 = 16,
    Pop2 = 17,
}

impl Rule {
    /// All of them, in the order of their numbers.
    pub const ALL: [Rule; 17] = [
        Rule::Assign,
        Rule::New,
        Rule::Delete,
        Rule::Assert,
        Rule::Seq,
        Rule::If,
        Rule::While,
        Rule::Send,
        Rule::Raise,
        Rule::Leave,
        Rule::Return,
        Rule::Dequeue,
        Rule::Step,
        Rule::Action,
        Rule::Call,
        Rule::Pop1,
        Rule::Pop2,
    ];

    /// Its number.
    pub fn number(self) -> u8 {
        self as u8
    }

    /// Its name, as the run program writes it.
    pub fn name(self) -> &'static str {
        match self {
            Rule::Assign => "ASSIGN",
            Rule::New => "NEW",
            Rule::Delete => "DELETE",
            Rule::Assert => "ASSERT",
            Rule::Seq => "SEQ",
            Rule::If => "IF",
            Rule::While => "WHILE",
            Rule::Send => "SEND",
            Rule::Raise => "RAISE",
            Rule::Leave => "LEAVE",
            Rule::Return => "RETURN",
            Rule::Dequeue => "DEQUEUE",
            Rule::Step => "STEP",
            Rule::Action => "ACTION",
            Rule::Call => "CALL",
            Rule::Pop1 => "POP1",
            Rule::Pop2 => "POP2",
        }
    }

    /// The rule of a number that the library gave.
    pub(crate) fn of(number: u8) -> Rule {
        Rule::ALL[usize::from(number) - 1]
    }
}

impl fmt::Display for Rule {
    fn fmt(&self, f: &mut fmt::Formatter) -> fmt::Result {
        f.write_str(self.name())
    }
}
