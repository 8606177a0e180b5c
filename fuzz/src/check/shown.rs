//! What reads a configuration, a value, a pair: fit, live, machine, value, pair.

use namakviz::raw::{self, Live, LiveNumbers, MachineNumbers, ValueNumbers};

use super::{agree, Checked};
use crate::case::Case;
use crate::peer::{self, Peer};

pub struct Shown {
    pub fit: u8,
    pub live: LiveNumbers,
    pub machine: MachineNumbers,
    pub value: ValueNumbers,
}

pub fn shown(case: &Case, peer: &Peer) -> Checked<Shown> {
    let (program, config) = (&case.program, &case.config);
    let fit = raw::fit(program, config);
    agree("fit: the peer", &fit, &peer.fit())?;
    let live = raw::live(program, config);
    agree("live: the peer", &live, &peer.live())?;
    let machine = raw::machine(program, config, Live(case.machine));
    agree("machine: the peer", &machine, &peer.machine(case.machine))?;
    let value = raw::value(case.number);
    agree("value: the peer", &value, &peer::value(case.number))?;
    agree("pair: the peer", &raw::pair(case.number), &peer::pair(case.number))?;
    Ok(Shown { fit, live, machine, value })
}
