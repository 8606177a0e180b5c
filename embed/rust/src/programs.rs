//! Loading a text, and starting its program.

use std::error::Error;
use std::fmt;

use crate::answers::Answer;
use crate::choices::Choice;
use crate::configs::Config;
use crate::raw;

/// A program. Its tables are open: a program that was made otherwise than by [`load`] is tested like any other, and answered 20 where it is
/// not one.
#[derive(Clone, PartialEq, Eq)]
pub struct Program {
    pub raw: Box<raw::Program>,
}

/// Why a text was not loaded, and its line, counted from 1 (0 where no single line is at fault).
#[derive(Clone, Copy, PartialEq, Eq, Debug)]
pub struct Refusal {
    pub answer: Answer,
    pub line: usize,
}

impl fmt::Display for Refusal {
    fn fmt(&self, f: &mut fmt::Formatter) -> fmt::Result {
        write!(f, "line {}: {}", self.line, self.answer)
    }
}

impl Error for Refusal {}

/// The program of a text, and its choices.
pub fn load(text: &[u8]) -> Result<(Program, Vec<Choice>), Refusal> {
    let loaded = raw::load(text);
    Answer::of(loaded.answer).map_err(|answer| Refusal { answer, line: loaded.line })?;
    let choices = loaded.choices[..loaded.count].iter().map(|&number| Choice::of(number)).collect();
    Ok((Program { raw: boxed(&loaded.program) }, choices))
}

/// A program on the heap, copied by a function of its own, so that the call of the loader has no room for the copy on its stack.
fn boxed(program: &raw::Program) -> Box<raw::Program> {
    Box::new(*program)
}

impl Program {
    /// The start configuration: one machine, live number 1.
    pub fn start(&self) -> Result<Config, Answer> {
        let started = raw::start(&self.raw);
        Answer::of(started.answer)?;
        Ok(Config { raw: Box::new(started.config) })
    }
}
