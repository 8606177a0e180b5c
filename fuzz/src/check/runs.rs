//! run: its end, the rules, and that it does what steps do.

use namakviz::raw::{EndNumbers, Program, StepNumbers};

use super::steps::{fit, same_after};
use super::{agree, demand, Checked};
use crate::case::Case;
use crate::lend::{self, Ran, NO_RULE};
use crate::peer::Peer;

/// A run of more steps is not taken step by step.
const SHORT: usize = 8;

pub fn run(case: &Case, peer: &Peer) -> Checked<Ran> {
    let ours = lend::run(&case.program, &case.config, &case.list)?;
    run_ends(case, &ours)?;
    let (end, rules, peer_after) = peer.ran(&case.list);
    agree("run: the peer", &ours.end, &end)?;
    agree("run: the peer's rules", &ours.rules[..end.steps], &rules[..])?;
    same_after("run", &case.config, &ours.config, &peer_after)?;
    if ours.end.place == 0 && ours.end.answer != 0 {
        demand(ours.config == case.config, "run: stopped before the first choice, and the configuration is as it was")?;
        return Ok(ours);
    }
    if ours.end.steps <= SHORT {
        step_by_step(case, &ours)?;
    } else {
        in_two_parts(case, &ours)?;
    }
    refused_again(case, &ours)?;
    Ok(ours)
}

/// Answer, place, steps and the row of rules go together.
fn run_ends(case: &Case, ours: &Ran) -> Checked<()> {
    let EndNumbers { answer, place, steps } = ours.end;
    let length = case.list.len();
    demand(steps <= length, "run: no more steps than choices")?;
    match answer {
        0 => demand(place == 0 && steps == length, "run: done, place 0, a step for each choice")?,
        3 | 20 => demand(place == 0 && steps == 0, "run: 3 and 20 at place 0, no steps")?,
        _ => demand(place == steps + 1 && place <= length, "run: refused at the place behind the steps")?,
    }
    agree("run: 3 exactly where the list is too long and nothing is 20", &(answer == 3), &(answer != 20 && length > Program::CHOICES))?;
    demand(ours.rules[..steps].iter().all(|rule| (1..=17).contains(rule)), "run: a rule for each step")?;
    demand(ours.rules[steps..].iter().all(|&rule| rule == NO_RULE), "run: behind the steps the rules are as they were")
}

/// Lent steps one by one do what the run does.
fn step_by_step(case: &Case, ran: &Ran) -> Checked<()> {
    let mut config = case.config.clone();
    for (&word, &rule) in case.list.iter().zip(&ran.rules[..ran.end.steps]) {
        let (stepped, after) = lend::step(&case.program, &config, word / 256, word as u8)?;
        agree("run: step by step", &stepped, &StepNumbers { answer: 0, rule })?;
        config = after;
    }
    demand(config == ran.config, "run: step by step to the same configuration")
}

/// A run of the first half of the steps, then of the rest, does what the run does.
fn in_two_parts(case: &Case, ran: &Ran) -> Checked<()> {
    let half = ran.end.steps / 2;
    let first = lend::run(&case.program, &case.config, &case.list[..half])?;
    agree("run: the first half", &first.end, &EndNumbers { answer: 0, place: 0, steps: half })?;
    let second = lend::run(&case.program, &first.config, &case.list[half..])?;
    let place = ran.end.place.saturating_sub(half);
    agree("run: the second half", &second.end, &EndNumbers { answer: ran.end.answer, place, steps: ran.end.steps - half })?;
    let rules = [&first.rules[..half], &second.rules[..second.end.steps]].concat();
    agree("run: rules in two halves", &rules[..], &ran.rules[..ran.end.steps])?;
    demand(second.config == ran.config, "run: in two halves to the same configuration")
}

/// What the run leaves is accepted, and a step of it refuses the choice that the run was stopped at.
fn refused_again(case: &Case, ran: &Ran) -> Checked<()> {
    if ran.end.answer == 0 {
        return agree("run: what it leaves is accepted", &fit(&case.program, &ran.config)?, &0);
    }
    let word = case.list[ran.end.steps];
    let (stepped, after) = lend::step(&case.program, &ran.config, word / 256, word as u8)?;
    agree("run: the refused step", &stepped, &StepNumbers { answer: ran.end.answer, rule: 0 })?;
    demand(after == ran.config, "run: the refused step leaves the configuration as it was")
}
