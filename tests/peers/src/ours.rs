//! The proved library, by rule and search, and our routers without proof.

use crate::legal::Branches;
use arvumnao::raw;
use job::{clock, Job};
use std::time::Duration;

/// Words lent for the log.
const LOG: usize = 1 << 24;

/// Rule 1 or 2, and whether the search aims.
#[derive(Clone, Copy, PartialEq, Debug)]
pub struct Way {
    pub rule: u32,
    pub aimed: bool,
}

pub const WAYS: [Way; 4] = [
    Way { rule: 1, aimed: false },
    Way { rule: 2, aimed: false },
    Way { rule: 1, aimed: true },
    Way { rule: 2, aimed: true },
];

/// Lent memory, the same for every run.
pub struct Lent {
    work: Vec<u64>,
    log: Vec<u32>,
}

impl Lent {
    pub fn new() -> Lent {
        Lent { work: vec![0; 8 * 4_096], log: vec![0; LOG] }
    }
}

/// What a run comes to, and its processor time.
#[derive(Clone, Debug)]
pub struct Run {
    pub settled: bool,
    pub iterations: u64,
    pub turns: u64,
    pub words: usize,
    pub time: Duration,
}

/// Routes a job once.
pub fn route(job: &Job, way: Way, lent: &mut Lent) -> Run {
    let job = Job { rule: way.rule, ..job.clone() };
    let call = if way.aimed { raw::route_aimed } else { raw::route };
    let (terms, mut out) = (job.terms(), [0; raw::OUT]);
    let work = &mut lent.work[..8 * job.kind.len()];
    let start = clock::cpu_time();
    call(
        &job.kind,
        &job.capacity,
        &job.first_edge,
        &job.edge_target,
        &job.source,
        &job.first_sink,
        &job.sink,
        &job.delay,
        &job.criticality,
        &terms,
        work,
        &mut lent.log,
        &mut out,
    );
    let time = clock::cpu_time() - start;
    let refusal = raw::refusal(&out);
    assert!(matches!(refusal.first(), None | Some(9)), "refusal {refusal:?}");
    let &[iterations, turns, words]: &[u64; 3] = raw::own(&out);
    Run { settled: refusal.is_empty(), iterations, turns, words: words as usize, time }
}

/// The same under rule 1 by a router without proof.
pub fn route_unproved(job: &Job, way: tuned::Way, lent: &mut Lent) -> Run {
    let start = clock::cpu_time();
    let outcome = tuned::route(
        way,
        &job.kind,
        &job.capacity,
        &job.first_edge,
        &job.edge_target,
        &job.source,
        &job.first_sink,
        &job.sink,
        Job { rule: 1, ..job.clone() }.terms(),
        &mut lent.log,
    );
    let time = clock::cpu_time() - start;
    Run {
        settled: outcome.refusal.is_empty(),
        iterations: outcome.iteration,
        turns: outcome.turns,
        words: outcome.words as usize,
        time,
    }
}

/// The final trees' branches, from the records of each net's latest iteration.
pub fn branches(job: &Job, run: &Run, lent: &Lent) -> Branches {
    let mut list: Vec<(u32, Vec<(u16, u16)>)> = vec![(0, Vec::new()); job.source.len()];
    let mut rest = &lent.log[..run.words];
    while let [iteration, net, _, _, _, nodes, after @ ..] = rest {
        let (path, next) = after.split_at(*nodes as usize);
        let tree = &mut list[*net as usize];
        if tree.0 != *iteration {
            *tree = (*iteration, Vec::new());
        }
        tree.1.extend(path.windows(2).map(|step| (step[0] as u16, step[1] as u16)));
        rest = next;
    }
    list.into_iter().map(|tree| tree.1).collect()
}

/// A number that is the same for the same log.
pub fn log_hash(run: &Run, lent: &Lent) -> u64 {
    lent.log[..run.words]
        .iter()
        .fold(0, |hash: u64, &word| (hash ^ word as u64).wrapping_mul(0x9e37_79b9_7f4a_7c15).rotate_left(31))
}
