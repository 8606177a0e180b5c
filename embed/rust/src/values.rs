//! Values, and pairs of an event and a value.

use std::fmt;

use crate::raw::{self, Live};

/// A value of a variable, or one that comes with an event.
#[derive(Clone, Copy, PartialEq, Eq, Hash, Debug)]
pub enum Value {
    Undefined,
    Bool(bool),
    Int(i32),
    Event(u8),
    Id(Live),
}

impl Value {
    /// The value of a number in a configuration: any number is read as one.
    pub fn of(number: u64) -> Value {
        let value = raw::value(number);
        match value.kind {
            1 => Value::Bool(value.number != 0),
            2 => Value::Int(value.number as i32),
            3 => Value::Event(value.number as u8),
            4 => Value::Id(Live(value.number as u32)),
            _ => Value::Undefined,
        }
    }
}

impl fmt::Display for Value {
    fn fmt(&self, f: &mut fmt::Formatter) -> fmt::Result {
        match self {
            Value::Undefined => f.write_str("undefined"),
            Value::Bool(x) => write!(f, "{x}"),
            Value::Int(x) => write!(f, "{x}"),
            Value::Event(event) => write!(f, "event{event}"),
            Value::Id(machine) => write!(f, "id{}", machine.0),
        }
    }
}

/// An event that waits in a queue, with its value.
#[derive(Clone, Copy, PartialEq, Eq, Hash, Debug)]
pub struct Pair {
    pub event: u32,
    pub value: Value,
}

impl Pair {
    /// The pair of a number in a queue: any number is read as one.
    pub fn of(number: u64) -> Pair {
        let pair = raw::pair(number);
        Pair { event: pair.event, value: Value::of(pair.value) }
    }
}
