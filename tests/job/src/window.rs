//! A window of a real chip, and nets drawn over it.
//!
//! `window.txt` is what `cargo run --release -p peers -- window` prints: four tiles, columns 4 and 5 of rows 5 and 6, of the iCE40 1K in the
//! chip database of Project IceStorm (ISC licence; Debian's fpga-icestorm-chipdb 0~20230218gitd20a5e9-1), with 36 in a hundred of its wires
//! removed, and nets from 40 in a hundred of its LUT outputs to LUT inputs.

use crate::jobs::{self, Plan};
use crate::{Job, Rng};

/// The job text.
pub const TEXT: &str = include_str!("window.txt");

/// A LUT's output and its inputs.
const OUTPUT: u8 = 2;
const INPUT: u8 = 3;

/// The lists of the text.
fn plan() -> Plan {
    let mut plan = Plan::empty(0);
    for line in TEXT.lines() {
        let fields: Vec<u16> = line[2..].split(',').map(|field| field.parse().expect("a number")).collect();
        match (line.as_bytes()[0], &fields[..]) {
            (b'F', &[nodes, _, _, limit]) => plan = Plan { limit: limit.into(), ..Plan::empty(nodes.into()) },
            (b'N', &[node, kind, _]) => plan.kind[node as usize] = kind as u8,
            (b'E', &[from, to]) => plan.rows[from as usize].push(to),
            (b'S', &[_, source]) => plan.nets.push((source, Vec::new())),
            (b'T', &[_, sink]) => plan.nets.last_mut().expect("a net").1.push(sink),
            _ => panic!("no line of the window: {line}"),
        }
    }
    plan
}

/// The job as it is stored.
pub fn stored() -> Job {
    plan().job()
}

/// Other nets over the same block, of few to most of its outputs, each input in one net, with every tuning and rule, timed or not.
pub fn seeded(rng: &mut Rng) -> Job {
    let mut plan = plan();
    plan.nets.clear();
    let (mut sources, mut free) = (pins(&plan, OUTPUT), pins(&plan, INPUT));
    rng.shuffle(&mut sources);
    rng.shuffle(&mut free);
    sources.truncate(rng.within(1, 20));
    for source in sources {
        let reached = reached(&plan, source);
        let count = rng.within(1, 4);
        let (sinks, others): (Vec<u16>, Vec<u16>) = free.iter().partition(|&&sink| reached[sink as usize]);
        let (sinks, left) = sinks.split_at(count.min(sinks.len()));
        if !sinks.is_empty() {
            plan.nets.push((source, sinks.to_vec()));
        }
        free = [left, &others].concat();
    }
    plan.limit = rng.within(1, 5) as u32;
    jobs::finish(rng, &mut plan);
    jobs::perhaps_timed(rng, plan.job())
}

/// The nodes of a kind.
fn pins(plan: &Plan, kind: u8) -> Vec<u16> {
    (0..plan.nodes()).filter(|&node| plan.kind[node] == kind).map(|node| node as u16).collect()
}

/// Which nodes can be reached from a node.
fn reached(plan: &Plan, from: u16) -> Vec<bool> {
    let mut seen = vec![false; plan.nodes()];
    let mut waiting = vec![from];
    while let Some(node) = waiting.pop() {
        if !std::mem::replace(&mut seen[node as usize], true) {
            waiting.extend(&plan.rows[node as usize]);
        }
    }
    seen
}

#[cfg(test)]
mod tests {
    use super::*;
    use crate::texts;

    /// Every line of the stored text is read, and capacities are 1.
    #[test]
    fn stored_text_stays() {
        assert_eq!(texts::text(&stored()), TEXT.as_bytes());
    }

    /// Over one block nets are drawn that crowd it more or less.
    #[test]
    fn nets_differ_and_block_stays() {
        let mut rng = Rng::new(1);
        let jobs: Vec<Job> = (0..20).map(|_| seeded(&mut rng)).collect();
        assert!(jobs.iter().all(|job| job.edge_target == stored().edge_target && !job.source.is_empty()));
        let sinks: Vec<usize> = jobs.iter().map(|job| job.sink.len()).collect();
        assert!(sinks.iter().any(|&count| count < 20) && sinks.iter().any(|&count| count > 40), "{sinks:?}");
    }
}
