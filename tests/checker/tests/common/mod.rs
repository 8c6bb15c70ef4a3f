//! Jobs of 01 and small changes of them.
#![allow(dead_code)]

use checker::{check, Fault, Timing};
use job::Job;

/// Edges rising by from, then to; nets as source and sinks; capacities 1.
pub fn tables(kind: &[u8], edges: &[(u16, u16)], nets: &[(u16, &[u16])], limit: u32) -> Job {
    let row = |node| edges.iter().filter(|e| usize::from(e.0) == node).map(|e| e.1).collect();
    let rows: Vec<_> = (0..kind.len()).map(row).collect();
    Job::new(kind.to_vec(), vec![1; kind.len()], &rows, nets, limit)
}

/// The checker's tuning.
pub fn tuning([first, up, down, step]: [u32; 4]) -> checker::Tuning {
    checker::Tuning { first, up, down, step }
}

/// The checker on a job with its own tables.
pub trait Checked {
    /// The tables lent.
    fn job(&self) -> checker::Job<'_>;

    /// Checks with every word of the log used.
    fn check(&self, log: &[u32], refusal: &[u64], iteration: u64, turns: u64) -> Result<(), Fault> {
        check(&self.job(), log, refusal, iteration, turns, log.len() as u64)
    }
}

impl Checked for Job {
    fn job(&self) -> checker::Job<'_> {
        checker::Job {
            kind: &self.kind,
            capacity: &self.capacity,
            first_edge: &self.first_edge,
            edge_target: &self.edge_target,
            source: &self.source,
            first_sink: &self.first_sink,
            sink: &self.sink,
            limit: self.limit,
            tuning: tuning(self.tuning.numbers()),
            timing: self.is_timed().then_some(Timing { delay: &self.delay, criticality: &self.criticality }),
        }
    }
}

pub const B_EDGES: [(u16, u16); 6] = [(0, 2), (0, 3), (1, 2), (2, 4), (2, 5), (3, 4)];

pub const B_LOG: [u32; 36] = [
    1, 0, 4, 4000, 0, 3, 0, 2, 4, //
    1, 1, 5, 4000, 0, 3, 1, 2, 5, //
    2, 0, 4, 6000, 0, 3, 0, 3, 4, //
    2, 1, 5, 6000, 0, 3, 1, 2, 5,
];

pub fn b(limit: u32) -> Job {
    tables(&[0, 0, 4, 5, 1, 1], &B_EDGES, &[(0, &[4]), (1, &[5])], limit)
}

pub const C_LOG: [u32; 17] = [
    1, 0, 3, 4000, 0, 3, 0, 1, 3, //
    1, 0, 2, 2000, 0, 2, 1, 2,
];

pub fn c() -> Job {
    tables(&[0, 4, 1, 1], &[(0, 1), (1, 2), (1, 3)], &[(0, &[3, 2])], 1)
}

/// C without the edge 1-3.
pub fn c_cut() -> Job {
    tables(&[0, 4, 1, 1], &[(0, 1), (1, 2)], &[(0, &[3, 2])], 1)
}

/// Two nets that both need wire 2.
pub fn narrow(limit: u32) -> Job {
    let edges = [(0, 2), (1, 2), (2, 3), (2, 4)];
    tables(&[0, 0, 4, 1, 1], &edges, &[(0, &[3]), (1, &[4])], limit)
}

pub const NARROW_LOG: [u32; 54] = [
    1, 0, 3, 4000, 0, 3, 0, 2, 3, //
    1, 1, 4, 4000, 0, 3, 1, 2, 4, //
    2, 0, 3, 8000, 0, 3, 0, 2, 3, //
    2, 1, 4, 8000, 0, 3, 1, 2, 4, //
    3, 0, 3, 12500, 0, 3, 0, 2, 3, //
    3, 1, 4, 12500, 0, 3, 1, 2, 4,
];

/// The log with the words at some places changed.
pub fn with(log: &[u32], changes: &[(usize, u32)]) -> Vec<u32> {
    let mut log = log.to_vec();
    for &(place, word) in changes {
        log[place] = word;
    }
    log
}
