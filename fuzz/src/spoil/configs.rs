//! Damages of a configuration in its rooms.

use namakviz::raw::{Config, Live, Program, Room};

use super::Nudge;
use crate::rng::Rng;

const EVENTS: usize = Program::EVENTS;

/// The number of an id value.
fn id(number: u32) -> u64 {
    (4 << 32) + u64::from(number)
}

/// One place changed, sometimes a few.
pub fn spoil(rng: &mut Rng, config: &mut Config) {
    loop {
        let live: Vec<usize> = (0..Program::ROOMS).filter(|&room| config.rooms[room].this.0 != 0).collect();
        let any = rng.below(Program::ROOMS);
        let room = rng.maybe_pick(&live).filter(|_| rng.percent(90)).unwrap_or(any);
        match rng.below(17) {
            0..=4 => number(rng, &mut config.rooms[room]),
            5 => behind(rng, &mut config.rooms[room]),
            6 => count(rng, &mut config.rooms[room]),
            7 => pair_twice(rng, &mut config.rooms[room]),
            8 => next(rng, config),
            9 => renumber(rng, config, room),
            10 => same_number(config, room, any),
            11 => depth(rng, &mut config.rooms[room]),
            12 => config.rooms.swap(room, any),
            13 => config.rooms[any] = config.rooms[room],
            14 => value(rng, &mut config.rooms[room]),
            15 => longer_row(rng, &mut config.rooms[room]),
            _ => part(rng, &mut config.rooms[room]),
        }
        if rng.percent(75) {
            break;
        }
    }
}

/// Any number of the room.
fn number(rng: &mut Rng, room: &mut Room) {
    let depth = room.depth.min(Program::STACK - 1);
    match rng.below(12) {
        0 => room.this.0.nudge(rng),
        1 => room.kind.0.nudge(rng),
        2 => room.states[rng.below(depth + 1)].nudge(rng),
        3..=4 => room.maps[rng.below((depth + 1) * EVENTS)].nudge(rng),
        5..=6 => room.values[rng.below(Program::VARIABLES + 3)].nudge(rng),
        7 => room.parts[rng.below(room.count.min(Program::ROW - 1) + 1)].nudge(rng),
        8..=9 => room.held.nudge(rng),
        _ => room.pairs[rng.below(room.waiting.min(Program::QUEUE - 1) + 1)].nudge(rng),
    }
}

/// A place behind the end is not zero.
fn behind(rng: &mut Rng, room: &mut Room) {
    fn last<T: Nudge>(rng: &mut Rng, row: &mut [T], used: usize) {
        if used < row.len() {
            let place = if rng.percent(50) { used } else { row.len() - 1 };
            row[place].nudge(rng);
        }
    }
    match rng.below(5) {
        0 => last(rng, &mut room.states, room.depth),
        1 => last(rng, &mut room.maps, room.depth.saturating_mul(EVENTS)),
        2 => last(rng, &mut room.values[..Program::VARIABLES], Program::VARIABLES - 1),
        3 => last(rng, &mut room.parts, room.count),
        _ => last(rng, &mut room.pairs, room.waiting),
    }
}

fn count(rng: &mut Rng, room: &mut Room) {
    match rng.below(3) {
        0 => room.depth.nudge(rng),
        1 => room.count.nudge(rng),
        _ => room.waiting.nudge(rng),
    }
}

/// A pair that waits is put at the end again, or over another one.
fn pair_twice(rng: &mut Rng, room: &mut Room) {
    let waiting = room.waiting.min(Program::QUEUE);
    if waiting == 0 {
        return;
    }
    let pair = room.pairs[rng.below(waiting)];
    if waiting < Program::QUEUE && rng.percent(50) {
        room.pairs[waiting] = pair;
        room.waiting += 1;
    } else {
        room.pairs[rng.below(waiting)] = pair;
    }
}

fn next(rng: &mut Rng, config: &mut Config) {
    match rng.below(3) {
        0 => config.next = rng.pick(&[0, 1, 2, 65_535, 65_536, 65_537, u32::MAX]),
        1 => config.next = config.rooms.iter().map(|room| room.this.0).max().unwrap_or(0),
        _ => config.next.nudge(rng),
    }
}

/// A machine gets another live number, its own `this` with it.
fn renumber(rng: &mut Rng, config: &mut Config, room: usize) {
    let number = match rng.below(4) {
        0 => config.next,
        1 => config.next.wrapping_sub(1),
        _ => rng.pick(&[0, 1, 65_535, 65_536]),
    };
    config.rooms[room].this = Live(number);
    config.rooms[room].values[16] = id(number);
}

/// Two machines have the same live number.
fn same_number(config: &mut Config, room: usize, other: usize) {
    if config.rooms[other].this.0 != 0 {
        config.rooms[other].this = config.rooms[room].this;
        config.rooms[other].values[16] = config.rooms[room].values[16];
    }
}

/// A stack of 0, 8 or 9 frames: those that are added are like the first.
fn depth(rng: &mut Rng, room: &mut Room) {
    let depth = rng.pick(&[0, 1, 8, 9]);
    for place in 0..Program::STACK {
        let kept = place < depth && place < room.depth;
        if !kept {
            let copied = place < depth;
            room.states[place] = if copied { room.states[0] } else { 0 };
            let (first, rest) = room.maps.split_at_mut(EVENTS);
            if place > 0 && copied {
                rest[(place - 1) * EVENTS..][..EVENTS].copy_from_slice(first);
            } else {
                room.maps[place * EVENTS..][..EVENTS].fill(0);
            }
        }
    }
    room.depth = depth;
}

/// A value becomes another one of the room, or has another kind or content.
fn value(rng: &mut Rng, room: &mut Room) {
    let place = rng.below(Program::VARIABLES + 3);
    room.values[place] = match rng.below(4) {
        0 => room.values[rng.below(Program::VARIABLES + 3)],
        1 => (rng.below(6) as u64) << 32 | room.values[place] & 0xffff_ffff,
        2 => (rng.below(6) as u64) << 32 | rng.below(70) as u64,
        _ => 0,
    };
}

/// A part of the row becomes another statement, or what is pending becomes something else.
fn part(rng: &mut Rng, room: &mut Room) {
    if room.count == 0 || rng.percent(30) {
        room.held = match rng.below(4) {
            0 => 0,
            1 => 1,
            2 => room.pairs[0],
            _ => (rng.below(8) as u64) << 40,
        };
    } else {
        room.parts[rng.below(room.count.min(Program::ROW))] = rng.below(60) as u16;
    }
}

/// A part of the row once more, at the end or before it: the others have one more behind them.
fn longer_row(rng: &mut Rng, room: &mut Room) {
    let count = room.count.min(Program::ROW - 1);
    let part = room.parts[rng.below(count + 1)];
    let place = rng.below(count + 1);
    room.parts.copy_within(place..count, place + 1);
    room.parts[place] = part;
    room.count = count + 1;
}

/// Any number in every place; counts and the next number mostly within their arrays.
pub fn any_numbers(rng: &mut Rng, config: &mut Config) {
    config.next = if rng.percent(50) { rng.any() as u32 } else { rng.below(65_537) as u32 };
    for room in &mut config.rooms {
        let near = rng.percent(90);
        let count = |any: u64, size: usize| if near { any as usize % (size + 1) } else { any as usize };
        room.this.0 = rng.any() as u32 & if near { 0xff } else { u32::MAX };
        room.kind.0 = rng.below(4) as u8;
        room.depth = count(rng.any(), Program::STACK);
        room.states.fill_with(|| rng.below(5) as u8);
        room.maps.fill_with(|| rng.any() as u8);
        room.values.fill_with(|| rng.any());
        room.count = count(rng.any(), Program::ROW);
        room.parts.fill_with(|| rng.any() as u16);
        room.held = rng.any();
        room.waiting = count(rng.any(), Program::QUEUE);
        room.pairs.fill_with(|| rng.any());
    }
}
