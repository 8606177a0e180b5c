//! A case: what is handed in. It depends on the seed and its number alone, and it is made with the peer: the proved runtime has no part in it.

use bench::plain::program::Tables;
use bench::plain::{self, Choice, Config};
use bench::written;
use namakviz::raw;

use crate::make::{self, Sort};
use crate::rng::Rng;
use crate::{lines, rooms, spoil, tabled};

pub struct Case {
    pub text: Vec<u8>,
    pub program: Box<raw::Program>,
    pub config: Box<raw::Config>,
    /// the choice for the step
    pub machine: u32,
    pub bits: u8,
    /// the choices for run and regroup
    pub list: Vec<u32>,
    /// the length of regroup's output buffer
    pub room: usize,
    /// a number for what reads values and pairs
    pub number: u64,
    pub sorts: Sorts,
}

/// How the parts of a case came to be.
#[derive(Clone, Copy)]
pub struct Sorts {
    pub text: Sort,
    pub program: Sort,
    pub config: Sort,
    pub list: Sort,
}

pub fn make(seed: u64, number: u64) -> Case {
    let rng = &mut Rng::new(seed, number);
    let tables = make::sound_program(rng);
    assert!(plain::sound_tables(&tables), "the generator makes sound programs");
    let sound = plain::Program::new(tables);
    let (program_sort, program) = handed_program(rng, &sound.tables);
    let (config_sort, config) = handed_config(rng, &sound);
    let fits = rooms::read(&sound, &config);
    let (list_sort, list) = make::any_list(rng, fits.as_ref().map(|config| (&sound, config)));
    let (machine, bits) = chosen(rng, &config, &list);
    let (text_sort, text) = handed_text(rng, &sound, &list);
    let room = make::room_for(rng, list.len());
    let number = any_number(rng, &config);
    Case {
        text,
        program,
        config,
        machine,
        bits,
        list,
        room,
        number,
        sorts: Sorts { text: text_sort, program: program_sort, config: config_sort, list: list_sort },
    }
}

fn handed_program(rng: &mut Rng, tables: &Tables) -> (Sort, Box<raw::Program>) {
    let mut program = tabled::written(tables);
    match rng.below(40) {
        0..=27 => ("as loaded", program),
        28..=31 => {
            let mut damaged = tables.clone();
            spoil::spoil_lines(rng, &mut damaged);
            ("a line damaged", tabled::written(&damaged))
        }
        32..=35 => {
            spoil::spoil_program(rng, &mut program);
            ("a number damaged", program)
        }
        36..=37 => {
            spoil::fill_unused(rng, &mut program);
            ("unused rows filled", program)
        }
        38 => {
            spoil::any_program(rng, &mut program);
            ("any numbers", program)
        }
        _ => ("no lines", tabled::empty()),
    }
}

fn handed_config(rng: &mut Rng, program: &plain::Program) -> (Sort, Box<raw::Config>) {
    let (sort, config): (Sort, Config) = match rng.below(10) {
        0 => ("start", plain::start(program)),
        1..=3 => {
            let steps = rng.between(1, 80);
            ("walked to", make::walked_config(rng, program, steps))
        }
        _ => ("any accepted", make::any_config(rng, program)),
    };
    let mut config = written::config(&config);
    match rng.below(20) {
        0..=12 => (sort, config),
        13..=18 => {
            spoil::spoil_config(rng, &mut config);
            ("damaged", config)
        }
        _ => {
            spoil::any_config(rng, &mut config);
            ("any numbers", config)
        }
    }
}

/// The choice for the step: the list's first, or one of a machine that may be live, or any.
fn chosen(rng: &mut Rng, config: &raw::Config, list: &[u32]) -> (u32, u8) {
    let live: Vec<u32> = config.rooms.iter().map(|room| room.this.0).filter(|&number| number != 0).collect();
    match (rng.below(20), rng.maybe_pick(&live), list.first()) {
        (0, _, _) => (rng.any() as u32, rng.any() as u8),
        (1, _, _) => (rng.pick(&[0, 1, config.next, 65_535, 65_536]), rng.any() as u8),
        (2..=6, _, Some(&first)) => (first / 256, first as u8),
        (_, Some(machine), _) => (machine, rng.any() as u8),
        _ => (1, 0),
    }
}

fn handed_text(rng: &mut Rng, program: &plain::Program, list: &[u32]) -> (Sort, Vec<u8>) {
    let mut text = lines::program_text(&program.tables).into_bytes();
    let choices = |rng: &mut Rng, text: &mut Vec<u8>| {
        for &word in list.iter().filter(|&&word| word >= 256).take(50) {
            let choice = Choice { machine: word / 256, bits: word as u8 };
            text.extend(lines::choice_line(&choice, rng.percent(50)).bytes());
        }
    };
    match rng.below(40) {
        0..=13 => {
            choices(rng, &mut text);
            ("sound", text)
        }
        14..=24 => {
            let mut damaged = program.tables.clone();
            spoil::spoil_lines(rng, &mut damaged);
            ("a line damaged", lines::program_text(&damaged).into_bytes())
        }
        25..=36 => {
            choices(rng, &mut text);
            spoil::spoil_text(rng, &mut text);
            ("bytes damaged", text)
        }
        37 => {
            spoil::full_text(rng, &mut text);
            ("60,000 bytes, or more", text)
        }
        38 => {
            spoil::many_choices(rng, &mut text);
            ("4,096 choices, or one more", text)
        }
        _ => ("any bytes", spoil::any_text(rng)),
    }
}

/// Any number for what reads values and pairs: one of the configuration's, one of any kind and event, or any.
fn any_number(rng: &mut Rng, config: &raw::Config) -> u64 {
    let live: Vec<&raw::Room> = config.rooms.iter().filter(|room| room.this.0 != 0).collect();
    let room = rng.maybe_pick(&live).unwrap_or(&config.rooms[0]);
    let content = if rng.percent(50) { rng.below(70) as u64 } else { rng.any() & 0xffff_ffff };
    match rng.below(8) {
        0..=1 => rng.pick(&room.values),
        2 => rng.pick(&room.pairs[..room.waiting.clamp(1, raw::Program::QUEUE)]),
        3..=5 => (rng.below(7) as u64) << 32 | content,
        6 => (rng.below(300) as u64) << 40 | (rng.below(7) as u64) << 32 | content,
        _ => rng.any(),
    }
}
