//! Trees, factor and histories as they are read off a log, record after record.
//!
//! "Before a turn of net i in iteration t, the tree of i is its source with the nodes of its earlier records of iteration t. Any other
//! net's tree is the nodes of its records in the latest iteration in which it has an earlier record; without one it is empty."

use crate::alone::Congestion;
use crate::job::{Job, LIMIT, TIMED_LIMIT};
use crate::kind;
use crate::log::Record;
use crate::replay::Step;
use crate::trees::Overfull;
use std::collections::BTreeMap;

/// The highest factor.
const MOST_FACTOR: u32 = 65_535;

/// The highest limit that the job may have.
pub(crate) fn highest_limit(job: &Job) -> u32 {
    if job.timing.is_some() {
        TIMED_LIMIT
    } else {
        LIMIT
    }
}

/// For each net the first of its source, under whose number it is routed.
pub(crate) fn firsts(sources: &[u16]) -> Vec<u32> {
    let mut first = BTreeMap::new();
    sources.iter().zip(0..).map(|(source, net)| *first.entry(*source).or_insert(net)).collect()
}

/// How a job stands after some of a log's records.
#[derive(Clone, Debug)]
pub(crate) struct Walk<'j> {
    job: &'j Job,
    /// The criticality of each sink of each joined net, that of its first listing; 0 in a job that isn't timed.
    criticality: BTreeMap<(u32, u32), u8>,
    /// The iteration of the last record, 0 before any.
    pub(crate) iteration: u32,
    /// Its factor, and each node's history in it.
    pub(crate) factor: u32,
    pub(crate) history: Vec<u32>,
    /// How many nets have each node in their tree.
    pub(crate) users: Vec<u32>,
    /// The base costs of the nodes of all trees, summed.
    pub(crate) tree_cost: u64,
    /// The nets that have a record in this iteration, and how many records these are.
    pub(crate) nets: u32,
    pub(crate) turns: u64,
    trees: Vec<Members>,
    /// Which nodes the tree of the record's net has: those marked with the last mark.
    marks: Vec<u64>,
    mark: u64,
    marked: Option<usize>,
    /// Which nodes the record's path has: those with the last number of a path.
    passed: Vec<u64>,
    path: u64,
}

/// A net's tree.
#[derive(Clone, Debug, Default)]
pub(crate) struct Members {
    /// The latest iteration in which the net has a record, 0 without one.
    pub(crate) iteration: u32,
    /// The source and the end of each branch; nothing without a record.
    pub(crate) nodes: Vec<u32>,
    /// The branches, in log order.
    pub(crate) branches: Vec<(u32, u32)>,
}

impl<'j> Walk<'j> {
    /// Before any record of a job whose tables are sound.
    pub(crate) fn new(job: &'j Job) -> Walk<'j> {
        let nodes = job.block.kind.len();
        Walk {
            job,
            criticality: criticalities(job),
            iteration: 0,
            factor: 0,
            history: vec![1; nodes],
            users: vec![0; nodes],
            tree_cost: 0,
            nets: 0,
            turns: 0,
            trees: vec![Members::default(); job.nets.source.len()],
            marks: vec![0; nodes],
            mark: 0,
            marked: None,
            passed: vec![0; nodes],
            path: 0,
        }
    }

    /// Every net's tree.
    pub(crate) fn trees(&self) -> &[Members] {
        &self.trees
    }

    /// Comes to a record: the iteration that it is of, its net and the net's tree before it. Says what is wrong with the record, unless it
    /// is a path of that net.
    pub(crate) fn come_to(&mut self, record: &Record) -> Result<(), String> {
        let Record { iteration, net, sink, path, .. } = *record;
        self.in_order(iteration)?;
        if !self.criticality.contains_key(&(net, sink)) {
            return Err(format!("node {sink} is no sink to which net {net} is routed"));
        }
        let nodes = self.users.len();
        if let Some(node) = path.iter().find(|node| **node as usize >= nodes) {
            return Err(format!("{node} is not a node of {nodes}"));
        }
        self.move_on(iteration);
        self.choose(net as usize);
        self.follows(path)
    }

    /// Iterations come one after the other.
    fn in_order(&self, iteration: u32) -> Result<(), String> {
        let highest = highest_limit(self.job);
        let next = self.iteration + 1;
        if iteration > highest {
            Err(format!("iteration {iteration} is beyond 1 to {highest}"))
        } else if iteration != next && (iteration != self.iteration || iteration == 0) {
            Err(format!("iteration {iteration} comes after iteration {}", self.iteration))
        } else {
            Ok(())
        }
    }

    /// Factor and histories move on with the iteration.
    fn move_on(&mut self, iteration: u32) {
        if iteration == self.iteration {
            return;
        }
        let terms = self.job.terms;
        if iteration > 1 {
            for (history, over) in self.history.iter_mut().zip(over(&self.users, &self.job.block.capacity)) {
                *history += terms.step * over;
            }
        }
        self.factor = match iteration {
            1 => 0,
            2 => terms.first,
            _ => (self.factor * terms.up / terms.down).min(MOST_FACTOR),
        };
        (self.iteration, self.nets, self.turns) = (iteration, 0, 0);
        self.marked = None;
    }

    /// The record's net: its tree of an earlier iteration is dropped, and the nodes of the tree that it has are marked.
    fn choose(&mut self, net: usize) {
        if self.marked == Some(net) {
            return;
        }
        self.marked = Some(net);
        self.mark += 1;
        if self.trees[net].iteration == self.iteration {
            self.trees[net].nodes.iter().for_each(|node| self.marks[*node as usize] = self.mark);
            return;
        }
        let old = std::mem::take(&mut self.trees[net].nodes);
        for node in &old {
            self.users[*node as usize] -= 1;
            self.tree_cost -= u64::from(self.base(*node));
        }
        self.trees[net].branches.clear();
        self.trees[net].iteration = self.iteration;
        self.nets += 1;
        self.gain(net, self.job.nets.source[net].into());
    }

    /// The chosen net's tree gains a node.
    fn gain(&mut self, net: usize, node: u32) {
        self.trees[net].nodes.push(node);
        self.marks[node as usize] = self.mark;
        self.users[node as usize] += 1;
        self.tree_cost += u64::from(self.base(node));
    }

    /// The path leads along edges from a node of the tree over nodes that it doesn't have.
    fn follows(&mut self, path: &[u32]) -> Result<(), String> {
        let Some((first, rest)) = path.split_first() else { return Err(String::from("its path is empty")) };
        if !self.has(*first) {
            return Err(format!("its path begins at node {first}, which the net's tree doesn't have"));
        }
        if let Some(node) = rest.iter().find(|node| self.has(**node)) {
            return Err(format!("its path comes to node {node}, which the net's tree has already"));
        }
        self.path += 1;
        for node in rest {
            if std::mem::replace(&mut self.passed[*node as usize], self.path) == self.path {
                return Err(format!("its path passes node {node} twice"));
            }
        }
        match path.iter().zip(rest).find(|(from, to)| !self.job.block.has_edge(**from, **to)) {
            Some((from, to)) => Err(format!("no switch leads from node {from} to node {to}")),
            None => Ok(()),
        }
    }

    /// Whether the tree of the record's net has the node.
    fn has(&self, node: u32) -> bool {
        self.marks[node as usize] == self.mark
    }

    fn base(&self, node: u32) -> u32 {
        kind::base_cost(self.job.block.kind[node as usize]).unwrap_or_default()
    }

    /// The criticality of the record's sink, in a timed job.
    pub(crate) fn criticality(&self, record: &Record) -> Option<u8> {
        self.job.timing.as_ref()?;
        self.criticality.get(&(record.net, record.sink)).copied()
    }

    /// What a node costs in the turn of the record that was come to.
    pub(crate) fn step(&self, node: u32, criticality: Option<u8>) -> Step {
        let place = node as usize;
        let others = self.users[place] - u32::from(self.has(node));
        let excess = (others + 1).saturating_sub(self.job.block.capacity[place].into());
        let (history, base) = (self.history[place], self.base(node));
        let present = 100 + u64::from(self.factor) * u64::from(excess);
        let congestion = u64::from(history) * u64::from(base) * present;
        let delay = self.job.timing.as_ref().map_or(0, |timing| timing.delay[place].into());
        let price = match criticality.map(u64::from) {
            None => congestion,
            Some(criticality) => criticality * u64::from(delay) * 100 + (10 - criticality) * congestion,
        };
        Step { node, history, base, excess, delay, price }
    }

    /// What a search of the turn of the record that was come to starts from.
    pub(crate) fn congestion(&self) -> Congestion {
        let has = |node: usize| self.marks[node] == self.mark;
        let others = |(node, users): (usize, &u32)| (users - u32::from(has(node))) as u16;
        Congestion {
            factor: self.factor,
            history: self.history.clone(),
            others: self.users.iter().enumerate().map(others).collect(),
            in_tree: (0..self.users.len()).map(|node| u8::from(has(node))).collect(),
        }
    }

    /// The sinks that the turn may join: those of its net that the tree lacks, in a timed job the record's own, whose turn it is.
    pub(crate) fn open(&self, record: &Record) -> Vec<u32> {
        if self.job.timing.is_some() {
            return vec![record.sink];
        }
        let sinks =
            self.criticality.range((record.net, 0)..=(record.net, u32::MAX)).map(|((_, sink), _)| *sink);
        sinks.filter(|sink| !self.has(*sink)).collect()
    }

    /// Takes the record that was come to: its nodes join the tree.
    pub(crate) fn take(&mut self, record: &Record) {
        let net = record.net as usize;
        for (from, to) in record.path.iter().zip(record.path.iter().skip(1)) {
            self.gain(net, *to);
            self.trees[net].branches.push((*from, *to));
        }
        self.turns += 1;
    }

    /// How many nodes are over their capacity, and by how many nets in all.
    pub(crate) fn overuse(&self) -> (u32, u64) {
        let over = over(&self.users, &self.job.block.capacity).filter(|over| *over > 0);
        over.fold((0, 0), |(nodes, sum), over| (nodes + 1, sum + u64::from(over)))
    }

    /// These nodes, with their nets.
    pub(crate) fn overfull(&self) -> Vec<Overfull> {
        let mut places = vec![usize::MAX; self.users.len()];
        let mut list = Vec::new();
        for (node, over) in
            over(&self.users, &self.job.block.capacity).enumerate().filter(|(_, over)| *over > 0)
        {
            places[node] = list.len();
            let capacity = self.job.block.capacity[node].into();
            list.push(Overfull {
                node: node as u32,
                capacity,
                nets: Vec::with_capacity((capacity + over) as usize),
            });
        }
        for (tree, net) in self.trees.iter().zip(0..) {
            for node in &tree.nodes {
                if let Some(overfull) = list.get_mut(places[*node as usize]) {
                    overfull.nets.push(net);
                }
            }
        }
        list
    }
}

/// By how many nets each node is over its capacity.
fn over<'w>(users: &'w [u32], capacity: &'w [u8]) -> impl Iterator<Item = u32> + 'w {
    users.iter().zip(capacity).map(|(users, capacity)| users.saturating_sub((*capacity).into()))
}

/// The sinks to which each net is routed, each with its criticality: "all nets of one source are joined into the first of them", "after a
/// join of nets under 2.3 the first listing's criticality counts".
fn criticalities(job: &Job) -> BTreeMap<(u32, u32), u8> {
    let mut listed = BTreeMap::new();
    let mut place = 0;
    for (net, first) in firsts(&job.nets.source).into_iter().enumerate() {
        for sink in job.nets.sinks(net) {
            let criticality = job.timing.as_ref().map_or(0, |timing| timing.criticality[place]);
            listed.entry((first, (*sink).into())).or_insert(criticality);
            place += 1;
        }
    }
    listed
}
