//! load, start and step.

use namakviz::raw::{Config, LoadNumbers, Program, StartNumbers, StepNumbers};

use super::{agree, demand, Checked};
use crate::case::Case;
use crate::lend;
use crate::peer::{self, After, Peer};

pub fn load(text: &[u8]) -> Checked<Box<LoadNumbers>> {
    let ours = lend::load(text)?;
    let peer = peer::loaded(text);
    agree("load: the peer's answer and line", &(ours.answer, ours.line), &(peer.answer, peer.line))?;
    demand(ours.program == peer.program, "load: the peer's program")?;
    demand(ours.count == peer.count && ours.choices == peer.choices, "load: the peer's choices")?;
    Ok(ours)
}

/// A step of machine 0, which never lives, answers 20 or 19: whether program and configuration are one.
pub fn fit(program: &Program, config: &Config) -> Checked<u8> {
    let (stepped, after) = lend::step(program, config, 0, 0)?;
    demand(*after == *config, "step of machine 0: the configuration is as it was")?;
    match stepped {
        StepNumbers { answer: 19, rule: 0 } => Ok(0),
        StepNumbers { answer: 20, rule: 0 } => Ok(20),
        other => Err(format!("step of machine 0: {other:?}")),
    }
}

pub fn start(case: &Case, peer: &Peer) -> Checked<Box<StartNumbers>> {
    let ours = lend::start(&case.program);
    let wanted = peer.started();
    agree("start: a step of it answers 20 where the start does", &fit(&case.program, &ours.config)?, &ours.answer)?;
    agree("start: the peer", &ours.answer, &wanted.answer)?;
    demand(ours.config == wanted.config, "start: the peer's configuration")?;
    Ok(ours)
}

/// The configuration is the peer's.
pub fn same_after(what: &str, before: &Config, ours: &Config, peer: &After) -> Checked<()> {
    demand(*ours == *peer.as_deref().unwrap_or(before), &format!("{what}: the peer's configuration"))
}

pub fn step(case: &Case, peer: &Peer) -> Checked<(StepNumbers, Box<Config>)> {
    let (program, before) = (&case.program, &case.config);
    let (ours, after) = lend::step(program, before, case.machine, case.bits)?;
    let again = lend::step(program, before, case.machine, case.bits)?;
    demand(again == (ours, after.clone()), "step: the same again")?;
    if ours.answer == 0 {
        agree("step: what it leaves is accepted", &fit(program, &after)?, &0)?;
    } else {
        demand(after == *before, "step: refused, and the configuration is as it was")?;
        agree("step: refused, and no rule", &ours.rule, &0)?;
    }
    agree("step: 20 whatever the machine", &fit(program, before)?, &if ours.answer == 20 { 20 } else { 0 })?;
    let (wanted, peer_after) = peer.stepped(case.machine, case.bits);
    agree("step: the peer", &ours, &wanted)?;
    same_after("step", before, &after, &peer_after)?;
    Ok((ours, after))
}
