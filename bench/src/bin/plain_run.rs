//! The run program and the regroup program of document 01 over the peer, to compare it with recorded outputs.
//!
//!     plain_run run|regroup < TEXT

use std::io::{self, Read, Write};
use std::process::ExitCode;

use bench::plain::{load, regroup, run, start, Choice, CHOICES};

fn main() -> ExitCode {
    let program = match std::env::args().nth(1).as_deref() {
        Some("run") => run_text,
        Some("regroup") => regroup_text,
        _ => {
            eprintln!("usage: plain_run run|regroup < TEXT");
            return ExitCode::from(2);
        }
    };
    let mut text = Vec::new();
    let read = io::stdin().read_to_end(&mut text);
    match read.and_then(|_| io::stdout().write_all(program(&text).as_bytes())) {
        Ok(()) => ExitCode::SUCCESS,
        Err(error) => {
            eprintln!("plain_run: {error}");
            ExitCode::from(2)
        }
    }
}

/// All that the run program writes.
fn run_text(text: &[u8]) -> String {
    let (program, choices) = match load(text) {
        Ok(loaded) => loaded,
        Err(refusal) => return format!("end={} line={}\n", refusal.answer, refusal.line),
    };
    let mut config = start(&program);
    let mut rules = Vec::new();
    let ended = run(&program, &mut config, &choices, &mut rules);
    let mut out = String::new();
    for (before, (choice, rule)) in choices.iter().zip(&rules).enumerate() {
        out += &format!("n={} machine={} rule={}\n", before + 1, choice.machine, rule.name());
    }
    out + &format!("end={} steps={} live={}\n", ended.answer, ended.steps, config.live())
}

/// All that the regroup program writes.
fn regroup_text(text: &[u8]) -> String {
    let (program, choices) = match load(text) {
        Ok(loaded) => loaded,
        Err(refusal) => return format!("end={} line={}\n", refusal.answer, refusal.line),
    };
    let mut placed = [Choice { machine: 0, bits: 0 }; CHOICES];
    match regroup(&program, &start(&program), &choices, &mut placed) {
        Ok(length) => {
            let lines: String = placed[..length].iter().map(|choice| format!("choice={} bits={}\n", choice.machine, choice.bits)).collect();
            lines + "end=0\n"
        }
        Err(answer) => format!("end={answer}\n"),
    }
}
