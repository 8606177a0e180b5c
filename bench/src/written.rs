//! The peer's choices, rules and configurations written as the proved runtime's, to see that both did the same before they are timed.

use namakviz::raw::{Config, Kind, Live, Room};

use crate::plain::machine::{Entry, Machine, Pair, Pending};
use crate::plain::program::Value;
use crate::plain::{self, Choice, Rule};

pub fn choice(choice: &Choice) -> u32 {
    choice.machine * 256 + u32::from(choice.bits)
}

/// Rules are numbered from 1, in the order of document 01's list.
pub fn rule(rule: &Rule) -> u8 {
    *rule as u8 + 1
}

pub fn config(config: &plain::Config) -> Box<Config> {
    let rooms = config.rooms.each_ref().map(|machine| room(machine.as_ref()));
    Box::new(Config { next: config.next, rooms })
}

fn room(machine: Option<&Machine>) -> Room {
    let mut room = Room {
        this: Live(0),
        kind: Kind(0),
        depth: 0,
        states: [0; 8],
        maps: [0; 8 * 64],
        values: [0; 19],
        count: 0,
        parts: [0; 33],
        held: 0,
        waiting: 0,
        pairs: [0; 16],
    };
    let Some(machine) = machine else {
        return room;
    };
    room.this = Live(machine.this);
    room.kind = Kind(machine.kind);
    room.depth = machine.stack.len();
    for (place, frame) in machine.stack.iter().enumerate() {
        room.states[place] = frame.state;
        for (entry, code) in frame.map.iter().zip(&mut room.maps[place * 64..]) {
            *code = match *entry {
                Entry::Nothing => 0,
                Entry::Deferred => 255,
                Entry::Action(action) => action,
            };
        }
    }
    for (value, code) in machine.variables.iter().zip(&mut room.values) {
        *code = value_code(*value);
    }
    room.values[16..].copy_from_slice(&[value_code(Value::Id(machine.this)), value_code(machine.msg), value_code(machine.arg)]);
    room.count = machine.row.len();
    room.parts[..machine.row.len()].copy_from_slice(&machine.row);
    room.held = match machine.pending {
        Pending::Nothing => 0,
        Pending::Return => 1,
        Pending::Raise(pair) => pair_code(pair),
    };
    room.waiting = machine.queue.len();
    for (pair, code) in machine.queue.iter().zip(&mut room.pairs) {
        *code = pair_code(*pair);
    }
    room
}

pub fn value_code(value: Value) -> u64 {
    let tagged = |tag: u64, content: u32| (tag << 32) + u64::from(content);
    match value {
        Value::Undefined => 0,
        Value::Bool(x) => tagged(1, u32::from(x)),
        Value::Int(x) => tagged(2, (x as u32) ^ 0x8000_0000),
        Value::Event(event) => tagged(3, u32::from(event)),
        Value::Id(number) => tagged(4, number),
    }
}

fn pair_code(pair: Pair) -> u64 {
    (u64::from(pair.event) << 40) + value_code(pair.value)
}
