//! Counts of uses, and the logs that are added to them: of jobs of one block, of other blocks, and changed.

use crate::compare::{After, Case};
use crate::logs;
use crate::run::real_log;
use job::{jobs, Job, Rng};
use plain::KINDS;

/// Counts that calls hand on, of so many logs.
#[derive(Clone, Debug, PartialEq, Eq)]
pub struct Counts {
    uses: Vec<u64>,
    logs: u64,
}

impl Counts {
    /// Those of no log.
    pub fn none() -> Counts {
        Counts { uses: vec![0; KINDS], logs: 0 }
    }

    /// Counts of a block at their bounds, where at times a kind or two have other uses; a few have other lengths than 54 entries.
    pub fn extreme(rng: &mut Rng, graph: &Job) -> Counts {
        let logs = rng.pick(&[0, 1, 1, 2, 65_534, 65_535, 65_535, 65_536, 65_537, 1 << 32, u64::MAX]);
        let nodes = |kind: usize| graph.kind.iter().filter(|one| **one as usize == kind).count() as u64;
        let mut uses: Vec<u64> = (0..KINDS).map(|kind| 512 * logs.min(65_535) * nodes(kind)).collect();
        for _ in 0..rng.below(3) {
            let kind = if rng.percent(50) { rng.below(6) } else { rng.below(KINDS) };
            uses[kind] = match rng.below(4) {
                0 => 0,
                1 => uses[kind] / 2,
                2 => uses[kind] + 1,
                _ => rng.pick(&[1, 1 << 32, u64::MAX]),
            };
        }
        match rng.below(8) {
            0 => uses.truncate(rng.pick(&[0, 1, 52, 53])),
            1 => uses.extend([u64::MAX, 5]),
            _ => {}
        }
        Counts { uses, logs }
    }

    /// A log added to them.
    pub fn add(&self, graph: &Job, log: &[u32]) -> Case {
        Case::AddUses { graph: graph.clone(), counts: self.uses.clone(), logs: self.logs, log: log.to_vec() }
    }

    /// Their text in a buffer of this length.
    pub fn write(&self, graph: &Job, length: usize) -> Case {
        let buffer = vec![0xb7; length];
        Case::WriteUses { graph: graph.clone(), counts: self.uses.clone(), logs: self.logs, buffer }
    }

    /// Takes over what an accepted log leaves; whether it was one.
    pub fn take(&mut self, after: &After) -> bool {
        let Case::AddUses { counts, .. } = &after.case else { return false };
        let accepted = after.answer.refusal.is_empty();
        if accepted {
            *self = Counts { uses: counts.clone(), logs: after.answer.numbers[0] };
        }
        accepted
    }
}

/// A log to add to counts of the job's block, and what it is: mostly of some job of this block.
pub fn log(rng: &mut Rng, job: &Job) -> (String, Vec<u32>) {
    match rng.below(9) {
        0 => (String::from("log of another block"), real_log(&jobs::small(rng))),
        1 => (String::from("log of no job"), logs::free_log(rng)),
        2 | 3 => {
            let mut log = real_log(&of_block(rng, job));
            logs::change_log(rng, &job.source, &mut log);
            (String::from("changed log"), log)
        }
        _ => {
            let job = of_block(rng, job);
            (format!("log of rule {}", job.rule), real_log(&job))
        }
    }
}

/// A job of the same block: some of the nets, in any order, under either rule.
fn of_block(rng: &mut Rng, job: &Job) -> Job {
    let mut nets: Vec<usize> = (0..job.source.len()).collect();
    rng.shuffle(&mut nets);
    nets.truncate(rng.within(1, nets.len()));
    let rule = rng.pick(&[1, 2]);
    let mut other = Job { source: Vec::new(), first_sink: vec![0], sink: Vec::new(), rule, ..job.clone() };
    other.criticality.clear();
    for net in nets {
        other.add_net(job.source[net], job.sinks(net));
        if job.is_timed() {
            let places = job.first_sink[net] as usize..job.first_sink[net + 1] as usize;
            other.criticality.extend(&job.criticality[places]);
        }
    }
    other
}
