//! The regrouper.

use super::machine::Config;
use super::run::{run, Rule};
use super::{Answer, Choice, Program};

/// The choices regrouped, at the front of `out`. On a refusal nothing is written: 20, 3, 21, 22 in that order.
pub fn regroup(program: &Program, config: &Config, choices: &[Choice], out: &mut [Choice]) -> Result<usize, Answer> {
    let mut after = config.clone();
    let mut rules = Vec::with_capacity(choices.len());
    let ended = run(program, &mut after, choices, &mut rules);
    if ended.answer != 0 && ended.place == 0 {
        return Err(ended.answer);
    }
    if out.len() < choices.len() {
        return Err(21);
    }
    if ended.answer != 0 && ended.place < choices.len() {
        return Err(22);
    }
    if let Some((&last, rest)) = choices.split_last() {
        let mut order = Order::new(rest, after.next, out);
        order.place_all(&rules, last);
    }
    Ok(choices.len())
}

/// The choices that are not yet placed, as a chain for each machine: places in the list, counted from 1, 0 for none.
struct Order<'a> {
    choices: &'a [Choice],
    first: Vec<u16>,
    last: Vec<u16>,
    next: Vec<u16>,
    out: &'a mut [Choice],
    placed: usize,
}

impl<'a> Order<'a> {
    /// The machines that took a step have numbers below `live`.
    fn new(choices: &'a [Choice], live: u32, out: &'a mut [Choice]) -> Order<'a> {
        let (first, last) = (vec![0; live as usize], vec![0; live as usize]);
        Order { choices, first, last, next: vec![0; choices.len() + 1], out, placed: 0 }
    }

    /// The meetings in order, each behind its machine's choices that are not yet placed; then the other machines' by live number; then the last one's.
    fn place_all(&mut self, rules: &[Rule], last: Choice) {
        for (before, rule) in rules.iter().enumerate().take(self.choices.len()) {
            let machine = self.choices[before].machine as usize;
            self.wait(machine, before + 1);
            if rule.is_meeting() {
                self.place(machine);
            }
        }
        for machine in (0..self.first.len()).filter(|&machine| machine != last.machine as usize) {
            self.place(machine);
        }
        if (last.machine as usize) < self.first.len() {
            self.place(last.machine as usize);
        }
        self.out[self.placed] = last;
    }

    fn wait(&mut self, machine: usize, choice: usize) {
        match self.first[machine] {
            0 => self.first[machine] = choice as u16,
            _ => self.next[self.last[machine] as usize] = choice as u16,
        }
        self.last[machine] = choice as u16;
    }

    fn place(&mut self, machine: usize) {
        let mut choice = std::mem::take(&mut self.first[machine]) as usize;
        while choice != 0 {
            self.out[self.placed] = self.choices[choice - 1];
            self.placed += 1;
            choice = self.next[choice] as usize;
        }
    }
}
