//! The temperature override (docs/stories/OVERRIDE.md) as a controller in Rust: the coefficient waits during the settling call, and is taken
//! after the return.
//!
//!     override sessions/story-override.txt
//!
//! override.c does the same in C, and both write what override.out has.

use std::error::Error;
use std::fmt::Display;

use namakviz::{Answer, Choice, Config, Live, Program};

/// The steps after which the configuration is read.
const MOMENTS: [(usize, &str); 7] = [
    (11, "the clock has called Settling"),
    (13, "the coefficient has come, and waits"),
    (16, "what came later is taken; the coefficient waits on"),
    (21, "Settling has returned; Evaluate itself holds the coefficient back"),
    (26, "in Apply nothing holds it back"),
    (27, "it is taken"),
    (30, "the shift is the new one"),
];

/// The step after which the clock is chosen though it cannot step.
const HELD: usize = 13;
const CLOCK: Live = Live(2);

fn list(items: impl Iterator<Item = impl Display>) -> String {
    let items: Vec<String> = items.map(|item| item.to_string()).collect();
    if items.is_empty() {
        "none".to_string()
    } else {
        items.join(",")
    }
}

fn print_live_machines(program: &Program, config: &Config) -> Result<(), Answer> {
    for number in config.live(program)? {
        let machine = config.machine(program, number)?;
        println!(
            "machine={} kind={} depth={} state={} variables={} queue={}",
            number.0,
            machine.kind.0,
            machine.depth,
            machine.state.unwrap_or(0),
            list(machine.variables.iter()),
            list(machine.queue.iter().map(|pair| format!("{}:{}", pair.event, pair.value)))
        );
    }
    Ok(())
}

fn whether_same(a: &Config, b: &Config) -> &'static str {
    if a == b {
        "yes"
    } else {
        "no"
    }
}

/// The number of an answer, 0 where nothing was refused.
fn number<T>(result: Result<T, Answer>) -> u8 {
    result.err().map_or(0, Answer::number)
}

/// A step that is refused, and leaves the configuration as it was.
fn try_the_clock(program: &Program, config: &mut Config) {
    let before = config.clone();
    let stepped = config.step(program, CLOCK, 0);
    println!("chosen now: machine={} answer={} same={}", CLOCK.0, number(stepped), whether_same(config, &before));
}

fn step_through_the_choices(program: &Program, config: &mut Config, choices: &[Choice]) -> Result<(), Answer> {
    for (n, choice) in (1..).zip(choices) {
        let rule = config.step(program, choice.machine, choice.bits)?;
        println!("n={n} machine={} rule={rule}", choice.machine.0);
        if let Some((_, what)) = MOMENTS.iter().find(|(step, _)| *step == n) {
            println!("{what}:");
            print_live_machines(program, config)?;
        }
        if n == HELD {
            try_the_clock(program, config);
        }
    }
    Ok(())
}

/// A list run as a whole from the start, to the same end as step by step.
fn run_list(what: &str, program: &Program, choices: &[Choice], config: &Config) -> Result<(), Answer> {
    let mut other = program.start()?;
    let run = other.run(program, choices);
    let end = number(run.end.map_err(|stop| stop.answer));
    println!("{what}: end={end} steps={} same={}", run.rules.len(), whether_same(&other, config));
    Ok(())
}

/// A configuration with a number that is none of it is told from a good one, and is left as it is.
fn damage_the_configuration(program: &Program, config: &Config) {
    let mut other = config.clone();
    other.raw.rooms[1].states[0] = 99;
    let before = other.clone();
    let stepped = other.step(program, CLOCK, 0);
    println!(
        "fit: {} damaged: {} step: {} same={}",
        number(config.fit(program)),
        number(other.fit(program)),
        number(stepped),
        whether_same(&other, &before)
    );
}

fn main() -> Result<(), Box<dyn Error>> {
    let path = std::env::args_os().nth(1).ok_or("usage: override TEXT")?;
    let (program, choices) = namakviz::load(&std::fs::read(path)?)?;
    let mut config = program.start()?;
    println!("start:");
    print_live_machines(&program, &config)?;
    step_through_the_choices(&program, &mut config, &choices)?;
    run_list("run", &program, &choices, &config)?;
    let regrouped = program.start()?.regroup(&program, &choices)?;
    println!("regrouped: {}", regrouped.iter().map(|choice| choice.machine.0.to_string()).collect::<Vec<_>>().join(" "));
    run_list("run regrouped", &program, &regrouped, &config)?;
    damage_the_configuration(&program, &config);
    Ok(())
}
