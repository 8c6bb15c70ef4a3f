//! The trees that a log leaves.

use crate::job::Job;
use crate::kind;
use crate::log::Log;
use crate::refusal::{listed, Refusal};
use crate::walk::Walk;
use std::fmt;

/// A node over its capacity.
#[derive(Clone, Debug, PartialEq, Eq)]
pub struct Overfull {
    /// The node.
    pub node: u32,
    /// Its capacity.
    pub capacity: u32,
    /// The nets whose tree has it, more than the capacity, in order.
    pub nets: Vec<u32>,
}

/// A net's tree: its source and the branches of its records of the latest iteration in which it has any.
///
/// ```
/// let job = arvumnao::Job::read(include_bytes!("../../../examples/timed.txt"))?;
/// let trees = job.route()?.log.trees(&job)?;
/// assert_eq!(trees[0].branches, [(0, 2), (2, 4), (0, 1), (1, 3)]);
/// assert_eq!(trees[0].path(4), Some(vec![0, 2, 4]));
/// assert_eq!((trees[0].delay(&job, 4), trees[0].delay(&job, 3)), (Some(10), Some(60)));
/// # Ok::<(), arvumnao::Refusal>(())
/// ```
#[derive(Clone, Debug, PartialEq, Eq)]
pub struct Tree {
    /// The net: the first of its source.
    pub net: u32,
    /// The iteration of its records.
    pub iteration: u32,
    /// Its source node.
    pub source: u32,
    /// Its switches, from node to node, in the order in which they were joined.
    pub branches: Vec<(u32, u32)>,
}

impl Tree {
    /// Its nodes, each once: the source, then the end of each branch.
    pub fn nodes(&self) -> impl Iterator<Item = u32> + '_ {
        std::iter::once(self.source).chain(self.branches.iter().map(|(_, to)| *to))
    }

    /// The nodes from the source to this one; none if the tree doesn't have it.
    pub fn path(&self, node: u32) -> Option<Vec<u32>> {
        let mut path = vec![node];
        // a branch begins where an earlier one ends, or at the source
        for (from, to) in self.branches.iter().rev() {
            if path.last() == Some(to) {
                path.push(*from);
            }
        }
        path.reverse();
        (path.first() == Some(&self.source)).then_some(path)
    }

    /// The base costs of its nodes, summed; a node that the job lacks has none.
    pub fn cost(&self, job: &Job) -> u64 {
        let base = |node: u32| kind::base_cost(*job.block.kind.get(node as usize)?);
        self.nodes().filter_map(base).map(u64::from).sum()
    }

    /// The sum of the delays of the nodes from the source to this one, without the source, as in the prices. None if the
    /// tree doesn't have the node or the job isn't timed.
    pub fn delay(&self, job: &Job, node: u32) -> Option<u64> {
        let timing = job.timing.as_ref()?;
        let path = self.path(node)?;
        path.iter().skip(1).map(|node| timing.delay.get(*node as usize).copied().map(u64::from)).sum()
    }
}

impl Log {
    /// The final trees, of each net that has a record, in order. Refused by [`Refusal::Table`] and [`Refusal::TooLarge`] unless the job's
    /// tables keep their rules, and by [`Refusal::Replay`] if a record is no path of its net.
    pub fn trees(&self, job: &Job) -> Result<Vec<Tree>, Refusal> {
        let walk = self.walked(job)?;
        let found =
            walk.trees().iter().zip(&job.nets.source).zip(0..).filter(|((tree, _), _)| tree.iteration > 0);
        Ok(found
            .map(|((tree, source), net)| Tree {
                net,
                iteration: tree.iteration,
                source: (*source).into(),
                branches: tree.branches.clone(),
            })
            .collect())
    }

    /// The nodes over their capacity in the final trees, in order. Refused as [`Log::trees`] is.
    pub fn overfull(&self, job: &Job) -> Result<Vec<Overfull>, Refusal> {
        Ok(self.walked(job)?.overfull())
    }

    /// The walk to the log's end.
    fn walked<'j>(&self, job: &'j Job) -> Result<Walk<'j>, Refusal> {
        job.check()?;
        let mut walk = Walk::new(job);
        let mut word = 0;
        for record in self {
            walk.come_to(&record).map_err(|reason| Refusal::Replay { word, reason })?;
            walk.take(&record);
            word += record.words();
        }
        Ok(walk)
    }
}

/// As in `node 2 (2 of 1: nets 0, 1)`, with the first few of many nets.
impl fmt::Display for Overfull {
    fn fmt(&self, f: &mut fmt::Formatter<'_>) -> fmt::Result {
        let Overfull { node, capacity, nets } = self;
        write!(f, "node {node} ({} of {capacity}: nets {})", nets.len(), listed(nets))
    }
}
