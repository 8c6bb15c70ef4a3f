//! Nets of one source, joined into the first of them.

use crate::tables::{Nets, Timing};

/// A sink as it is listed: its node, and in a timed job its criticality, else 0.
#[derive(Clone, Copy)]
pub struct Sink {
    pub node: usize,
    pub criticality: u8,
}

/// The lowest-numbered net of a net's source.
pub fn first_of(source: &[u16], net: usize) -> usize {
    (0..net).find(|&other| source[other] == source[net]).unwrap_or(net)
}

/// The sinks that each net is routed to: the first net of a source has those of all its nets, in listed order, each once with the
/// criticality of its first listing; the others have none.
pub fn joined(nets: &Nets, timing: Option<&Timing>) -> Vec<Vec<Sink>> {
    let mut lists: Vec<Vec<Sink>> = vec![Vec::new(); nets.count()];
    for net in 0..nets.count() {
        let list = &mut lists[first_of(nets.source, net)];
        for place in nets.first_sink[net] as usize..nets.first_sink[net + 1] as usize {
            let node = nets.sink[place] as usize;
            if list.iter().all(|listed| listed.node != node) {
                list.push(Sink { node, criticality: timing.map_or(0, |timing| timing.criticality[place]) });
            }
        }
    }
    lists
}
