//! Paths: a logged one's cost, the least cost, and reachability.

use std::cmp::Reverse;
use std::collections::BinaryHeap;

use crate::job::Job;
use crate::prices::{weighed, Prices};
use crate::trees::Trees;

/// A net before one of its turns; in a timed job with the sink whose turn it is, if one is left.
pub struct View<'a> {
    pub job: &'a Job<'a>,
    pub trees: &'a Trees,
    pub prices: &'a Prices,
    pub net: usize,
    pub aim: Option<Aim<'a>>,
}

/// A sink of a timed job, and what the prices for it are weighed with.
pub struct Aim<'a> {
    pub sink: usize,
    pub criticality: u8,
    pub delay: &'a [u16],
}

impl<'a> View<'a> {
    pub fn new(job: &'a Job<'a>, trees: &'a Trees, prices: &'a Prices, net: usize) -> View<'a> {
        let mut view = View { job, trees, prices, net, aim: None };
        view.aim = view.due();
        view
    }

    /// Of the sinks that the tree lacks the one of the highest criticality, the first listed of equals.
    fn due(&self) -> Option<Aim<'a>> {
        let timing = self.job.timing?;
        let mut due: Option<Aim> = None;
        for place in self.job.sink_places(self.net) {
            let (sink, criticality) = (usize::from(self.job.sink[place]), timing.criticality[place]);
            if !self.in_tree(sink) && due.as_ref().is_none_or(|due| criticality > due.criticality) {
                due = Some(Aim { sink, criticality, delay: timing.delay });
            }
        }
        due
    }

    /// Whether the net's tree has the node; the source is always in it.
    pub fn in_tree(&self, node: usize) -> bool {
        node == self.job.source_of(self.net) || self.trees.has(self.net, node)
    }

    pub fn price(&self, node: usize) -> u64 {
        let price = self.prices.of(self.job, self.trees, self.net, node);
        match &self.aim {
            Some(aim) => weighed(price, aim.delay[node], aim.criticality),
            None => price,
        }
    }

    /// The prices of the path's nodes but the first. A logged path may be so
    /// long that 64 bits don't hold the sum.
    pub fn cost(&self, path: &[usize]) -> u128 {
        path.iter().skip(1).map(|&node| u128::from(self.price(node))).sum()
    }

    /// The sinks that the turn may join: those not yet joined, in a timed job the one whose turn it is.
    fn goals(&self) -> impl Iterator<Item = usize> + '_ {
        let sinks = self.job.sinks(self.net).iter().map(|&sink| usize::from(sink));
        let other = |sink: usize| self.aim.as_ref().is_some_and(|aim| aim.sink != sink);
        sinks.filter(move |&sink| !self.in_tree(sink) && !other(sink))
    }
}

/// The first step of the path that has no edge.
pub fn missing_edge(job: &Job, path: &[usize]) -> Option<(usize, usize)> {
    let mut steps = path.windows(2).map(|step| (step[0], step[1]));
    steps.find(|&(from, to)| !job.has_edge(from, to))
}

/// Dijkstra's search, with its memory kept from turn to turn.
pub struct Search {
    distance: Vec<u64>,
    goal: Vec<bool>,
    heap: BinaryHeap<Reverse<(u64, usize)>>,
}

impl Search {
    pub fn new(nodes: usize) -> Search {
        Search { distance: vec![0; nodes], goal: vec![false; nodes], heap: BinaryHeap::new() }
    }

    /// The least cost of a path from the net's tree to any sink that the turn may join.
    pub fn least(&mut self, view: &View) -> Option<u64> {
        self.begin(view);
        while let Some(Reverse((distance, node))) = self.heap.pop() {
            if distance > self.distance[node] {
                continue;
            }
            if self.goal[node] {
                return Some(distance);
            }
            for &next in view.job.targets(node) {
                let next = usize::from(next);
                self.offer(next, distance + view.price(next));
            }
        }
        None
    }

    /// Distances begin anew each turn: 0 on the tree, else none.
    fn begin(&mut self, view: &View) {
        self.distance.fill(u64::MAX);
        self.goal.fill(false);
        self.heap.clear();
        for sink in view.goals() {
            self.goal[sink] = true;
        }
        self.offer(view.job.source_of(view.net), 0);
        for &node in view.trees.members(view.net) {
            self.offer(node, 0);
        }
    }

    fn offer(&mut self, node: usize, distance: u64) {
        if distance < self.distance[node] {
            self.distance[node] = distance;
            self.heap.push(Reverse((distance, node)));
        }
    }
}

/// Marks the nodes that have a path from `start`.
pub fn reachable(job: &Job, start: usize) -> Vec<bool> {
    let mut mark = vec![false; job.nodes()];
    let mut open = vec![start];
    mark[start] = true;
    while let Some(node) = open.pop() {
        for &next in job.targets(node) {
            let next = usize::from(next);
            if !mark[next] {
                mark[next] = true;
                open.push(next);
            }
        }
    }
    mark
}

/// The first net, and in it the first sink's place, without a path.
pub fn first_unreachable(job: &Job) -> Option<(usize, usize)> {
    (0..job.nets()).find_map(|net| {
        let mark = reachable(job, job.source_of(net));
        let place = job.sinks(net).iter().position(|&sink| !mark[usize::from(sink)])?;
        Some((net, place))
    })
}
