//! What is asked of every case: of each call on its own, of calls together, and that the peer says the same.

mod regroups;
mod runs;
mod shown;
mod steps;

use namakviz::raw::{Config, EndNumbers, LoadNumbers, StartNumbers, StepNumbers};

use crate::case::Case;
use crate::peer::Peer;
use shown::Shown;

/// What differs, in words.
pub type Checked<T> = Result<T, String>;

/// What the calls of a case gave.
pub struct Results {
    pub loaded: Box<LoadNumbers>,
    pub started: Box<StartNumbers>,
    pub stepped: StepNumbers,
    pub after_step: Box<Config>,
    pub end: EndNumbers,
    pub rules: Vec<u8>,
    pub after_run: Box<Config>,
    pub regrouped: u8,
    pub out: Vec<u32>,
    pub shown: Shown,
}

pub fn demand(holds: bool, what: &str) -> Checked<()> {
    if holds {
        Ok(())
    } else {
        Err(what.into())
    }
}

fn agree<T: PartialEq + std::fmt::Debug + ?Sized>(what: &str, ours: &T, wanted: &T) -> Checked<()> {
    if ours == wanted {
        return Ok(());
    }
    Err(format!("{what}: {ours:?}, and not {wanted:?}"))
}

pub fn check(case: &Case) -> Checked<Results> {
    let peer = Peer::new(case);
    let program = case.program.clone();
    let loaded = steps::load(&case.text)?;
    let started = steps::start(case, &peer)?;
    let (stepped, after_step) = steps::step(case, &peer)?;
    let ran = runs::run(case, &peer)?;
    let (regrouped, out) = regroups::regroup(case, &peer, &ran)?;
    let shown = shown::shown(case, &peer)?;
    demand(program == case.program, "the program is as it was")?;
    let rules = ran.rules[..ran.end.steps].to_vec();
    Ok(Results { loaded, started, stepped, after_step, end: ran.end, rules, after_run: ran.config, regrouped, out, shown })
}
