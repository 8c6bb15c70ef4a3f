//! What the final trees of a log cost: the base costs of their nodes, summed.

use crate::Job;
use std::collections::{BTreeMap, BTreeSet};

/// A kind's base cost: 20, 20, 20, 19, then 20 a tile.
pub fn base(kind: u8) -> u64 {
    match kind {
        0..=2 => 20,
        3 => 19,
        wire => 20 * (wire as u64 - 3),
    }
}

/// A net's tree is the nodes of its records of the latest iteration in which it has any.
pub fn of_trees(job: &Job, log: &[u32]) -> u64 {
    let mut trees: BTreeMap<u32, (u32, BTreeSet<u32>)> = BTreeMap::new();
    let mut rest = log;
    while let [iteration, net, _, _, _, nodes, after @ ..] = rest {
        let (path, next) = after.split_at(*nodes as usize);
        let tree = trees.entry(*net).or_default();
        if tree.0 != *iteration {
            *tree = (*iteration, BTreeSet::new());
        }
        tree.1.extend(path);
        rest = next;
    }
    trees.values().flat_map(|tree| &tree.1).map(|&node| base(job.kind[node as usize])).sum()
}

#[cfg(test)]
mod tests {
    use super::*;

    #[test]
    fn latest_trees_count() {
        let job = Job::bare(vec![0, 0, 4, 5, 1, 3], vec![1; 6], 1);
        let log = [[1, 0, 4, 0, 0, 3, 0, 2, 4], [1, 1, 5, 0, 0, 3, 1, 2, 5], [2, 0, 4, 0, 0, 3, 0, 3, 4]];
        assert_eq!(of_trees(&job, log.as_flattened()), (20 + 40 + 20) + (20 + 20 + 19));
    }
}
