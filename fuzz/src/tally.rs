//! How often each function gave each answer, each rule was taken, and each sort of thing was handed in.

use std::collections::BTreeMap;
use std::fmt::Write;

use crate::case::Case;
use crate::check::Results;
use crate::make::Sort;

const FUNCTIONS: [&str; 8] = ["load", "start", "step", "run", "regroup", "fit", "live", "machine"];

/// The answers that each function can give.
const ANSWERS: [&[u8]; 8] = [
    &[0, 1, 2, 3, 4, 5, 6, 7, 8, 9],
    &[0, 20],
    &[0, 10, 11, 12, 13, 14, 15, 16, 17, 18, 19, 20],
    &[0, 3, 10, 11, 12, 13, 14, 15, 16, 17, 18, 19, 20],
    &[0, 3, 20, 21, 22],
    &[0, 20],
    &[0, 20],
    &[0, 19, 20],
];

const RULES: [&str; 17] = [
    "ASSIGN", "NEW", "DELETE", "ASSERT", "SEQ", "IF", "WHILE", "SEND", "RAISE", "LEAVE", "RETURN", "DEQUEUE", "STEP", "ACTION", "CALL", "POP1",
    "POP2",
];

/// The kinds of value that a number can have.
const VALUES: [Sort; 5] = ["undefined", "a bool", "an int", "an event", "an id"];

#[derive(Default)]
pub struct Tally {
    pub cases: u64,
    answers: [[u64; 23]; 8],
    /// by a step, and by a run
    rules: [[u64; 17]; 2],
    /// what was handed in, and how often it was good: a text that loads, a program that starts, a configuration that is one, a list that runs to its end, a value
    sorts: BTreeMap<(&'static str, Sort), (u64, u64)>,
}

impl Tally {
    pub fn add(&mut self, case: &Case, results: &Results) {
        self.cases += 1;
        let shown = &results.shown;
        let made = [results.loaded.answer, results.started.answer, results.stepped.answer, results.end.answer, results.regrouped];
        let read = [shown.fit, shown.live.answer, shown.machine.answer];
        for (counts, answer) in self.answers.iter_mut().zip(made.into_iter().chain(read)) {
            counts[answer as usize] += 1;
        }
        if results.stepped.answer == 0 {
            self.rules[0][results.stepped.rule as usize - 1] += 1;
        }
        for &rule in &results.rules {
            self.rules[1][rule as usize - 1] += 1;
        }
        let sorts = [
            ("text", case.sorts.text, results.loaded.answer == 0),
            ("program", case.sorts.program, results.started.answer == 0),
            ("configuration", case.sorts.config, results.stepped.answer != 20),
            ("list", case.sorts.list, results.end.answer == 0),
            ("number", VALUES[shown.value.kind as usize], shown.value.kind != 0),
        ];
        for (what, sort, good) in sorts {
            let counts = self.sorts.entry((what, sort)).or_default();
            counts.0 += 1;
            counts.1 += u64::from(good);
        }
    }

    pub fn table(&self) -> String {
        let mut table = format!("{:<8}", "answer");
        for function in FUNCTIONS {
            write!(table, "{function:>10}").expect("a string takes everything");
        }
        for answer in 0..23u8 {
            write!(table, "\n{answer:<8}").expect("a string takes everything");
            for (counts, can) in self.answers.iter().zip(ANSWERS) {
                let shown = if can.contains(&answer) { counts[answer as usize].to_string() } else { String::new() };
                write!(table, "{shown:>10}").expect("a string takes everything");
            }
        }
        write!(table, "\n\n{:<8}{:>10}{:>10}\n", "rule", "step", "run").expect("a string takes everything");
        for (place, rule) in RULES.iter().enumerate() {
            writeln!(table, "{rule:<8}{:>10}{:>10}", self.rules[0][place], self.rules[1][place]).expect("a string takes everything");
        }
        write!(table, "\n{:<44}{:>10}{:>10}\n", "handed in", "cases", "good").expect("a string takes everything");
        for ((what, sort), (all, good)) in &self.sorts {
            writeln!(table, "{:<44}{all:>10}{good:>10}", format!("{what}, {sort}")).expect("a string takes everything");
        }
        table
    }

    /// The answers and rules that can be reached and were not.
    pub fn missing(&self) -> Vec<String> {
        let mut missing = Vec::new();
        for ((function, counts), can) in FUNCTIONS.iter().zip(&self.answers).zip(ANSWERS) {
            missing.extend(can.iter().filter(|&&answer| counts[answer as usize] == 0).map(|answer| format!("{function} {answer}")));
        }
        for (function, counts) in ["step", "run"].iter().zip(&self.rules) {
            missing.extend(RULES.iter().zip(counts).filter(|(_, &count)| count == 0).map(|(rule, _)| format!("{function} {rule}")));
        }
        missing
    }
}
