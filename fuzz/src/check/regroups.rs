//! regroup: its answer, what it writes, and demand 3.

use namakviz::raw::EndNumbers;

use super::{agree, demand, Checked};
use crate::case::Case;
use crate::lend::{self, unwritten, Ran};
use crate::peer::Peer;

pub fn regroup(case: &Case, peer: &Peer, ran: &Ran) -> Checked<(u8, Vec<u32>)> {
    let (answer, out) = lend::regroup(&case.program, &case.config, &case.list, case.room)?;
    agree("regroup: in the order 20, 3, 21, 22", &answer, &regroup_answer(case, ran))?;
    let written = if answer == 0 { case.list.len() } else { 0 };
    let as_it_was = (written..case.room).all(|place| out[place] == unwritten(place));
    demand(as_it_was, "regroup: behind what is written the buffer is as it was")?;
    let list = out[..written].to_vec();
    if answer == 0 {
        regrouped(case, ran, &list)?;
    }
    let (peer_answer, peer_list) = peer.regrouped(&case.list, case.room);
    agree("regroup: the peer", &answer, &peer_answer)?;
    agree("regroup: the peer's list", &list, &peer_list)?;
    Ok((answer, list))
}

/// What regroup must answer, by what the run answered.
fn regroup_answer(case: &Case, ran: &Ran) -> u8 {
    let EndNumbers { answer, place, .. } = ran.end;
    match answer {
        3 | 20 => answer,
        _ if case.room < case.list.len() => 21,
        _ if place != 0 && place < case.list.len() => 22,
        _ => 0,
    }
}

/// Demand 3, of the regrouped list.
fn regrouped(case: &Case, ran: &Ran, list: &[u32]) -> Checked<()> {
    let by_machine = |list: &[u32]| {
        let mut sorted = list.to_vec();
        sorted.sort_by_key(|word| word / 256);
        sorted
    };
    demand(by_machine(list) == by_machine(&case.list), "regroup: the same choices, each machine's in its old order")?;
    demand(list.last() == case.list.last(), "regroup: the last choice is still last")?;
    let again = lend::run(&case.program, &case.config, list)?;
    agree("regroup: run, the same end", &again.end, &ran.end)?;
    demand(again.config == ran.config, "regroup: run, the same configuration")?;
    for place in 1..list.len() {
        let (machine, rule) = (list[place - 1] / 256, again.rules[place - 1]);
        let goes_on = || list[place..].iter().any(|word| word / 256 == machine);
        let stays = list[place] / 256 == machine;
        demand(stays || is_meeting(rule) || !goes_on(), "regroup: changes machine only after a meeting or a machine's last choice")?;
    }
    Ok(())
}

/// NEW, DELETE, SEND, DEQUEUE.
fn is_meeting(rule: u8) -> bool {
    matches!(rule, 2 | 3 | 8 | 12)
}
