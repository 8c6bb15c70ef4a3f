//! Lengths of lent slices: enough, just too short, longer.

use job::{Job, Lengths, Rng};

/// What a job needs of each table: of tables 9 and 10 nothing, if it is untimed.
pub fn needed(job: &Job) -> Lengths {
    let (nodes, nets, sinks) = (job.kind.len(), job.source.len(), job.sink.len());
    let (delays, criticalities) = if job.is_timed() { (nodes, sinks) } else { (0, 0) };
    [nodes, nodes, nodes + 1, job.edge_target.len(), nets, nets + 1, sinks, delays, criticalities]
}

/// Lengths that mostly are enough, at times in none or some of the tables.
pub fn lengths(rng: &mut Rng, needed: Lengths) -> Lengths {
    let way = rng.below(10);
    needed.map(|length| match way {
        0..=3 => length,
        4 | 5 => length + rng.below(4),
        6 | 7 if rng.once_in(4) => around(rng, length, 2),
        8 => around(rng, length, 2),
        9 if rng.once_in(3) => rng.below(length + 1),
        _ => length + rng.below(2),
    })
}

/// A length near another one.
pub fn around(rng: &mut Rng, length: usize, reach: usize) -> usize {
    (length + rng.below(2 * reach + 1)).saturating_sub(reach)
}
