//! The numbers of a report, read off the log.

use crate::kinds::{self, Uses};
use crate::run::Run;
use crate::table::counted;
use arvumnao::{Iteration, Job, Log, Nets, Refusal, Tree, UseCounts};
use std::cmp::Reverse;
use std::collections::BTreeMap;

pub struct Figures {
    pub name: String,
    /// In a sentence what came of the job.
    pub verdict: String,
    pub routed: bool,
    pub iterations: Vec<Row>,
    /// Sorted by how much more expensive they have become, most first.
    pub nets: Vec<Net>,
    /// Every node, in order.
    pub nodes: Vec<Node>,
    /// In a timed job, sorted by how much later they are reached, most first.
    pub sinks: Vec<Sink>,
    pub timed: bool,
    pub kinds: Vec<Uses>,
}

/// An iteration.
pub struct Row {
    pub number: u32,
    pub factor: u32,
    pub nets: u32,
    pub turns: u32,
    pub overfull: u32,
    pub overuse: u64,
    pub tree_cost: u64,
}

/// A net's tree at base costs, as if alone and now.
pub struct Net {
    pub net: u32,
    pub sinks: u32,
    pub alone: u64,
    pub now: u64,
}

/// A node at the end, and how crowded it has been.
pub struct Node {
    pub node: u32,
    pub kind: u8,
    pub capacity: u32,
    pub nets: Vec<u32>,
    pub history: u32,
    /// The most nets that it had after an iteration.
    pub peak: u32,
    /// After how many iterations it was overfull.
    pub overfull: u32,
}

/// The delay from a net's source to a sink, as if alone and now.
pub struct Sink {
    pub net: u32,
    pub sink: u32,
    pub criticality: u8,
    pub alone: u64,
    pub now: u64,
}

impl Node {
    /// Whether it is worth a row among the crowded ones.
    pub fn crowded(&self) -> bool {
        self.overfull > 0
    }
}

impl Figures {
    /// Goes through a run's log again.
    pub fn of(run: &Run) -> Result<Figures, Refusal> {
        let Run { job, log, .. } = run;
        let (alone, now) = (first_trees(job, log)?, log.trees(job)?);
        let mut nodes = nodes(job, &now);
        let mut iterations = Vec::new();
        for iteration in log.replay(job)? {
            let iteration = iteration?;
            iterations.push(row(&iteration));
            crowd(&mut nodes, &iteration);
        }
        let mut counts = UseCounts::default();
        counts.add(&job.block, log)?;
        Ok(Figures {
            name: run.name.clone(),
            verdict: verdict(run, &iterations),
            routed: run.refusal.is_none(),
            iterations,
            nets: nets(job, &alone, &now),
            nodes,
            sinks: sinks(job, &alone, &now),
            timed: job.timing.is_some(),
            kinds: kinds::uses(&counts.text(&job.block)?),
        })
    }

    /// The nodes that were ever overfull, most crowded first.
    pub fn crowded(&self) -> Vec<&Node> {
        let mut list: Vec<&Node> = self.nodes.iter().filter(|node| node.crowded()).collect();
        list.sort_by_key(|node| (Reverse(node.history), Reverse(node.overfull), node.node));
        list
    }
}

fn verdict(run: &Run, iterations: &[Row]) -> String {
    let turns: u32 = iterations.iter().map(|row| row.turns).sum();
    let last = iterations.last().map_or(0, |row| row.number);
    match &run.refusal {
        None => format!("settled in iteration {last}, after {turns} turns"),
        Some(_) => {
            let over = counted(iterations.last().map_or(0, |row| row.overfull as usize), "node");
            format!("not settled by iteration {last}, the limit, after {turns} turns: {over} overfull")
        }
    }
}

/// The trees after iteration 1, in which sharing is free and no node has a history: every net is routed as if alone.
fn first_trees(job: &Job, log: &Log) -> Result<Vec<Tree>, Refusal> {
    let first = log.records().take_while(|record| record.iteration == 1);
    let words: usize = first.map(|record| 6 + record.path.len()).sum();
    Log::from_words(&log.words()[..words], &job.nets)?.trees(job)
}

fn row(iteration: &Iteration) -> Row {
    let mut nets: Vec<u32> = iteration.turns.iter().map(|turn| turn.record.net).collect();
    nets.dedup();
    let over = iteration.overfull.iter().map(|crowd| crowd.nets.len() as u64 - u64::from(crowd.capacity));
    Row {
        number: iteration.number,
        factor: iteration.factor,
        nets: nets.len() as u32,
        turns: iteration.turns.len() as u32,
        overfull: iteration.overfull.len() as u32,
        overuse: over.sum(),
        tree_cost: iteration.tree_cost,
    }
}

/// The nodes with the nets that have them at the end.
fn nodes(job: &Job, trees: &[Tree]) -> Vec<Node> {
    let tables = job.block.kind.iter().zip(&job.block.capacity).enumerate();
    let mut nodes: Vec<Node> = tables
        .map(|(node, (kind, capacity))| Node {
            node: node as u32,
            kind: *kind,
            capacity: (*capacity).into(),
            nets: Vec::new(),
            history: 1,
            peak: 0,
            overfull: 0,
        })
        .collect();
    for tree in trees {
        for node in tree.nodes() {
            nodes[node as usize].nets.push(tree.net);
        }
    }
    nodes
}

/// Takes what an iteration did to the nodes.
fn crowd(nodes: &mut [Node], iteration: &Iteration) {
    let numbers = iteration.history.iter().zip(&iteration.users);
    for (node, (history, users)) in nodes.iter_mut().zip(numbers) {
        node.history = *history;
        node.peak = node.peak.max(*users);
        node.overfull += u32::from(*users > node.capacity);
    }
}

/// Two trees of each net.
fn pairs<'t>(alone: &'t [Tree], now: &'t [Tree]) -> impl Iterator<Item = (&'t Tree, &'t Tree)> {
    let first: BTreeMap<u32, &Tree> = alone.iter().map(|tree| (tree.net, tree)).collect();
    now.iter().filter_map(move |tree| first.get(&tree.net).map(|first| (*first, tree)))
}

fn nets(job: &Job, alone: &[Tree], now: &[Tree]) -> Vec<Net> {
    let pair = |(alone, now): (&Tree, &Tree)| Net {
        net: now.net,
        sinks: job.nets.joined_sinks(now.net as usize).len() as u32,
        alone: alone.cost(job),
        now: now.cost(job),
    };
    let mut nets: Vec<Net> = pairs(alone, now).map(pair).collect();
    nets.sort_by_key(|net| (Reverse(net.now as i64 - net.alone as i64), net.net));
    nets
}

fn sinks(job: &Job, alone: &[Tree], now: &[Tree]) -> Vec<Sink> {
    let mut sinks = Vec::new();
    for (alone, now) in pairs(alone, now) {
        for (sink, criticality) in criticalities(job, now.net as usize) {
            let delays = alone.delay(job, sink).zip(now.delay(job, sink));
            sinks.extend(delays.map(|(alone, late)| Sink {
                net: now.net,
                sink,
                criticality,
                alone,
                now: late,
            }));
        }
    }
    sinks.sort_by_key(|sink| {
        (Reverse(sink.now as i64 - sink.alone as i64), Reverse(sink.criticality), sink.net)
    });
    sinks
}

/// The joined sinks of a net, each with the criticality of its first listing; none in a job that isn't timed.
fn criticalities(job: &Job, net: usize) -> Vec<(u32, u8)> {
    let Some(timing) = &job.timing else { return Vec::new() };
    let Nets { source, first_sink, sink } = &job.nets;
    let listed = |sink_node: u16| {
        let mut same = (0..source.len()).filter(|other| source[*other] == source[net]);
        same.find_map(|other| {
            let (first, end) = (first_sink[other] as usize, first_sink[other + 1] as usize);
            (first..end).find(|place| sink[*place] == sink_node)
        })
    };
    let joined = job.nets.joined_sinks(net).into_iter();
    joined.filter_map(|node| listed(node).map(|place| (node.into(), timing.criticality[place]))).collect()
}
