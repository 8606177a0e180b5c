//! A configuration: steps, runs and regroupings from it, and what is in it.

use std::error::Error;
use std::fmt;

use crate::answers::Answer;
use crate::choices::{self, Choice};
use crate::programs::Program;
use crate::raw::{self, Kind, Live};
use crate::rules::Rule;
use crate::values::{Pair, Value};

/// A configuration. Its numbers are open: one that was made otherwise than by the library is tested like any other, and answered 20 where it
/// is none of the program's.
#[derive(Clone, PartialEq, Eq)]
pub struct Config {
    pub raw: Box<raw::Config>,
}

/// What a run did.
#[must_use]
#[derive(Clone, PartialEq, Eq, Debug)]
pub struct Run {
    /// The rule of each step that was taken.
    pub rules: Vec<Rule>,
    /// Where it stopped, if a choice was refused.
    pub end: Result<(), Stop>,
}

/// Why a run stopped, and the place of the refused choice, counted from 1 (0 where none was tried: answers 20 and 3).
#[derive(Clone, Copy, PartialEq, Eq, Debug)]
pub struct Stop {
    pub answer: Answer,
    pub place: usize,
}

impl fmt::Display for Stop {
    fn fmt(&self, f: &mut fmt::Formatter) -> fmt::Result {
        write!(f, "choice {}: {}", self.place, self.answer)
    }
}

impl Error for Stop {}

/// What a machine is.
#[derive(Clone, PartialEq, Eq, Debug)]
pub struct Machine {
    pub kind: Kind,
    /// How many states are on its call stack.
    pub depth: usize,
    /// The state on top, if there is one.
    pub state: Option<u8>,
    /// The values of its variables, in the order of their numbers.
    pub variables: Vec<Value>,
    /// The pairs that wait, the first one first.
    pub queue: Vec<Pair>,
}

impl Config {
    /// A step of the machine: the rule that it took. A refused step changes nothing.
    pub fn step(&mut self, program: &Program, machine: Live, bits: u8) -> Result<Rule, Answer> {
        let stepped = raw::step(&program.raw, &mut self.raw, machine, bits);
        Answer::of(stepped.answer)?;
        Ok(Rule::of(stepped.rule))
    }

    /// The steps of a list, up to the first that is refused. The refused step changes nothing.
    pub fn run(&mut self, program: &Program, choices: &[Choice]) -> Run {
        let mut rules = [0; raw::Program::CHOICES];
        let ended = raw::run(&program.raw, &mut self.raw, &choices::numbers(choices), &mut rules);
        Run {
            rules: rules[..ended.steps].iter().map(|&number| Rule::of(number)).collect(),
            end: Answer::of(ended.answer).map_err(|answer| Stop { answer, place: ended.place }),
        }
    }

    /// The same choices with each machine's steps together. They end in the same configuration, with the same last answer.
    pub fn regroup(&self, program: &Program, choices: &[Choice]) -> Result<Vec<Choice>, Answer> {
        let mut out = vec![0; choices.len()];
        Answer::of(raw::regroup(&program.raw, &self.raw, &choices::numbers(choices), &mut out))?;
        Ok(out.into_iter().map(Choice::of).collect())
    }

    /// Whether the program is one and this is a configuration of it; else answer 20.
    pub fn fit(&self, program: &Program) -> Result<(), Answer> {
        Answer::of(raw::fit(&program.raw, &self.raw))
    }

    /// The live numbers, by room.
    pub fn live(&self, program: &Program) -> Result<Vec<Live>, Answer> {
        let live = raw::live(&program.raw, &self.raw);
        Answer::of(live.answer)?;
        Ok(live.machines[..live.count].iter().copied().map(Live).collect())
    }

    /// The machine with this live number: its kind, state, variables and queue. Answer 19 where none has it.
    pub fn machine(&self, program: &Program, machine: Live) -> Result<Machine, Answer> {
        let shown = raw::machine(&program.raw, &self.raw, machine);
        Answer::of(shown.answer)?;
        Ok(Machine {
            kind: shown.kind,
            depth: shown.depth,
            state: (shown.depth > 0).then_some(shown.state),
            variables: shown.values[..shown.variables].iter().copied().map(Value::of).collect(),
            queue: shown.pairs[..shown.waiting].iter().copied().map(Pair::of).collect(),
        })
    }
}
