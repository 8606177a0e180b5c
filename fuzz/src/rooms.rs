//! The proved runtime's configuration read as the peer's, whatever its numbers are; crates/configs says how.

use bench::plain::machine::{Entry, Frame, Machine, Pair, Pending};
use bench::plain::program::Value;
use bench::plain::{accepts, Config, Program, EVENTS, QUEUE, ROOMS, STACK, VARIABLES};
use bench::written;
use namakviz::raw;

/// The value of a number; undefined where it has no kind.
pub fn value_of(code: u64) -> Value {
    let content = code as u32;
    match code >> 32 {
        1 => Value::Bool(content == 1),
        2 => Value::Int((content ^ 0x8000_0000) as i32),
        3 => Value::Event(content as u8),
        4 => Value::Id(content),
        _ => Value::Undefined,
    }
}

/// The pair of a number; none where its event is no byte.
fn pair_of(code: u64) -> Option<Pair> {
    let event = u8::try_from(code >> 40).ok()?;
    Some(Pair { event, value: value_of(code & ((1 << 40) - 1)) })
}

fn pending_of(code: u64) -> Option<Pending> {
    match code {
        0 => Some(Pending::Nothing),
        1 => Some(Pending::Return),
        _ => pair_of(code).map(Pending::Raise),
    }
}

fn entry_of(code: u8) -> Entry {
    match code {
        0 => Entry::Nothing,
        255 => Entry::Deferred,
        action => Entry::Action(action),
    }
}

/// A frame's map has an entry for each of the program's events.
fn frame_of(program: &Program, room: &raw::Room, place: usize) -> Frame {
    let mut map = [Entry::Nothing; EVENTS];
    for (entry, &code) in map.iter_mut().zip(&room.maps[place * EVENTS..]).take(program.tables.events()) {
        *entry = entry_of(code);
    }
    Frame { state: room.states[place], map }
}

/// The machine in a room; none where a count is beyond its array, or a number beyond what the peer can hold.
fn machine_of(program: &Program, room: &raw::Room) -> Option<Machine> {
    let kind = room.kind.0;
    let own = program.variables_of.get(kind as usize)?;
    if room.depth > STACK || room.count > raw::Program::ROW || room.waiting > QUEUE {
        return None;
    }
    let mut variables = [Value::Undefined; VARIABLES];
    for (value, &code) in variables.iter_mut().zip(&room.values).take(own.len()) {
        *value = value_of(code);
    }
    Some(Machine {
        kind,
        this: room.this.0,
        stack: (0..room.depth).map(|place| frame_of(program, room, place)).collect(),
        variables,
        msg: value_of(room.values[17]),
        arg: value_of(room.values[18]),
        row: room.parts[..room.count].to_vec(),
        pending: pending_of(room.held)?,
        queue: room.pairs[..room.waiting].iter().map(|&code| pair_of(code)).collect::<Option<_>>()?,
    })
}

/// The configuration, where it is one of the program: accepted, and every unused place zero, so that writing what it reads as gives it again.
pub fn read(program: &Program, held: &raw::Config) -> Option<Config> {
    let mut config = Config { numbers: [0; ROOMS], rooms: [const { None }; ROOMS], next: held.next };
    for (place, room) in held.rooms.iter().enumerate().filter(|(_, room)| room.this.0 != 0) {
        config.numbers[place] = room.this.0;
        config.rooms[place] = Some(machine_of(program, room)?);
    }
    (accepts(program, &config) && *written::config(&config) == *held).then_some(config)
}
