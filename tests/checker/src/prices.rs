//! Prices worked out from the job and the log's earlier turns.

use crate::job::{Job, Tuning};
use crate::trees::Trees;

const TOP_FACTOR: u64 = 65_535;

/// Base cost by kind.
pub fn base(kind: u8) -> u64 {
    match kind {
        0..=2 => 20,
        3 => 19,
        wire => 20 * (u64::from(wire) - 3),
    }
}

/// The factor of an iteration, from 1.
pub fn factor(tuning: Tuning, iteration: u32) -> u64 {
    let [first, up, down] = [tuning.first, tuning.up, tuning.down].map(u64::from);
    match iteration {
        0 | 1 => 0,
        _ => (2..iteration).fold(first, |last, _| (last * up / down).min(TOP_FACTOR)),
    }
}

/// History × base × (100 + factor × what this net would pass the capacity by).
pub fn price(kind: u8, factor: u64, others: u32, capacity: u8, history: u64) -> u64 {
    let over = (u64::from(others) + 1).saturating_sub(u64::from(capacity));
    history * base(kind) * (100 + factor * over)
}

/// A timed job's price for a sink: criticality × delay × 100 and the other tenths of the congestion price.
pub fn weighed(price: u64, delay: u16, criticality: u8) -> u64 {
    u64::from(criticality) * u64::from(delay) * 100 + (10 - u64::from(criticality)) * price
}

/// What the earlier iterations leave to an iteration.
pub struct Prices {
    pub iteration: u32,
    factor: u64,
    history: Vec<u64>,
}

impl Prices {
    /// Those of iteration 1.
    pub fn new(job: &Job) -> Prices {
        Prices { iteration: 1, factor: factor(job.tuning, 1), history: vec![1; job.nodes()] }
    }

    /// Moves on to the next iteration, given the trees after this one.
    pub fn step(&mut self, job: &Job, trees: &Trees) {
        self.iteration += 1;
        self.factor = factor(job.tuning, self.iteration);
        for (node, history) in self.history.iter_mut().enumerate() {
            *history += u64::from(job.tuning.step) * u64::from(trees.over(job, node));
        }
    }

    /// The node's price to the net while the trees are these.
    pub fn of(&self, job: &Job, trees: &Trees, net: usize, node: usize) -> u64 {
        let others = trees.others(net, node);
        price(job.kind[node], self.factor, others, job.capacity[node], self.history[node])
    }
}
