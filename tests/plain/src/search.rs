//! Distances from a tree, the cheapest path back to it, and both as calls.

use crate::price::{criticality_is_good, factor_is_good, others_is_good, price_of, weighed};
use crate::price::{
    MAX_CRITICALITY, MAX_DELAY, MAX_FACTOR, MAX_HISTORY, MAX_KIND, MAX_OTHERS, MAX_TIMED_HISTORY,
};
use crate::tables::{delays_are_sound, Graph, MAX_EDGES, MAX_NODES, MAX_SINKS, MAX_TIMED_NODES};
use crate::Answer;
use std::collections::BTreeSet;

pub const NO_PATH: u64 = u64::MAX;

/// Every node's price.
pub fn prices(graph: &Graph, factor: u32, history: &[u32], others: &[u32]) -> Vec<u64> {
    let price =
        |v: usize| price_of(graph.kind[v] as u32, factor, others[v], graph.capacity[v] as u32, history[v]);
    (0..graph.nodes()).map(price).collect()
}

/// Every node's price for a sink of this criticality.
pub fn weighed_prices(prices: &[u64], delay: &[u16], criticality: u32) -> Vec<u64> {
    prices.iter().zip(delay).map(|(&price, &delay)| weighed(price, delay as u32, criticality)).collect()
}

/// Whether prices are weighed with delays, and then the criticality of the sink that they are for.
#[derive(Clone, Copy)]
pub struct Weighting {
    pub timed: bool,
    pub criticality: u32,
}

impl Weighting {
    pub const UNTIMED: Weighting = Weighting { timed: false, criticality: 0 };

    /// What a call alone takes a history to.
    fn most_history(self) -> u32 {
        if self.timed {
            MAX_TIMED_HISTORY
        } else {
            MAX_HISTORY
        }
    }

    /// The criticality within its bound.
    pub fn read(self) -> Weighting {
        Weighting { criticality: self.criticality.min(MAX_CRITICALITY), ..self }
    }

    /// What an aimed turn's estimates are weighed by.
    pub fn estimate_weight(self) -> u64 {
        if self.timed {
            10 - self.criticality as u64
        } else {
            1
        }
    }

    /// Congestion prices as they are, or weighed.
    pub fn of(self, prices: Vec<u64>, delay: &[u16]) -> Vec<u64> {
        if self.timed {
            weighed_prices(&prices, delay, self.criticality)
        } else {
            prices
        }
    }
}

/// Every node's distance from the tree: rounds over all edges until nothing changes.
pub fn distances(graph: &Graph, prices: &[u64], tree: &BTreeSet<usize>) -> Vec<u64> {
    let mut distance = vec![NO_PATH; graph.nodes()];
    for &v in tree {
        distance[v] = 0;
    }
    while one_round(graph, prices, &mut distance) {}
    distance
}

/// Looks at every edge once; says whether a distance fell.
fn one_round(graph: &Graph, prices: &[u64], distance: &mut [u64]) -> bool {
    let mut changed = false;
    for u in 0..graph.nodes() {
        for &target in graph.targets(u) {
            let v = target as usize;
            let through = sum(distance[u], prices[v]);
            if through < distance[v] {
                distance[v] = through;
                changed = true;
            }
        }
    }
    changed
}

/// Distance plus price; no path stays no path.
pub fn sum(distance: u64, price: u64) -> u64 {
    distance.saturating_add(price)
}

/// The path from the tree to a node that has a distance, built backwards.
pub fn path(
    graph: &Graph,
    prices: &[u64],
    distance: &[u64],
    tree: &BTreeSet<usize>,
    end: usize,
) -> Vec<usize> {
    let mut backwards = vec![end];
    let mut v = end;
    while !tree.contains(&v) {
        v = before(graph, prices, distance, v).expect("a node with a distance has one before it");
        backwards.push(v);
    }
    backwards.reverse();
    backwards
}

/// The lowest node with an edge to v from which v's distance comes.
fn before(graph: &Graph, prices: &[u64], distance: &[u64], v: usize) -> Option<usize> {
    (0..graph.nodes()).find(|&u| {
        distance[u] != NO_PATH && graph.has_edge(u, v) && sum(distance[u], prices[v]) == distance[v]
    })
}

/// The lowest node for which a list has a bad entry or none.
fn bad_node(nodes: usize, most: u32, history: &[u32], others: &[u16], in_tree: &[u8]) -> Option<usize> {
    (0..nodes).find(|&v| {
        let history_good = history.get(v).is_some_and(|h| (1..=most).contains(h));
        let others_good = others.get(v).is_some_and(|&o| others_is_good(o as u32));
        let mark_good = in_tree.get(v).is_some_and(|&m| m <= 1);
        !(history_good && others_good && mark_good)
    })
}

/// What the search refuses once its tables are sound: 15 if it is timed, 6, then 13.
fn refusal(
    nodes: usize,
    weighting: Weighting,
    work: &[u64],
    factor: u32,
    history: &[u32],
    others: &[u16],
    in_tree: &[u8],
) -> Option<Vec<u64>> {
    if weighting.timed && nodes > MAX_TIMED_NODES {
        return Some(vec![15, nodes as u64, 0]);
    }
    if work.len() < 8 * nodes {
        return Some(vec![6, 8 * nodes as u64]);
    }
    if let Some(node) = bad_node(nodes, weighting.most_history(), history, others, in_tree) {
        return Some(vec![13, node as u64]);
    }
    if !factor_is_good(factor) {
        return Some(vec![13, nodes as u64]);
    }
    if weighting.timed && !criticality_is_good(weighting.criticality) {
        return Some(vec![13, nodes as u64 + 1]);
    }
    None
}

/// The tree that the marks give.
pub fn marked(nodes: usize, in_tree: &[u8]) -> BTreeSet<usize> {
    (0..nodes).filter(|&v| in_tree[v] == 1).collect()
}

/// The search alone: tests 5, 6, 13, then leaves the distances and zeros in the work slice.
pub fn search(
    kind: &[u8],
    capacity: &[u8],
    first_edge: &[u32],
    edge_target: &[u16],
    factor: u32,
    work: &mut [u64],
    history: &[u32],
    others: &[u16],
    in_tree: &[u8],
) -> Answer {
    let graph = Graph { kind, capacity, first_edge, edge_target };
    searched(&graph, &[], Weighting::UNTIMED, factor, work, history, others, in_tree)
}

/// The timed search alone: tests 5, of tables 1 to 4 and 9, then 15, 6, 13.
pub fn timed_search(
    kind: &[u8],
    capacity: &[u8],
    first_edge: &[u32],
    edge_target: &[u16],
    delay: &[u16],
    factor: u32,
    criticality: u32,
    work: &mut [u64],
    history: &[u32],
    others: &[u16],
    in_tree: &[u8],
) -> Answer {
    let graph = Graph { kind, capacity, first_edge, edge_target };
    let weighting = Weighting { timed: true, criticality };
    searched(&graph, delay, weighting, factor, work, history, others, in_tree)
}

/// Table 9 where it is read, that is in a timed call, after tables 1 to 4.
fn broken(graph: &Graph, weighting: Weighting, delay: &[u16]) -> Option<u64> {
    let delays = !weighting.timed || delays_are_sound(delay, graph.nodes());
    graph.broken().or(if delays { None } else { Some(9) })
}

/// Either search.
fn searched(
    graph: &Graph,
    delay: &[u16],
    weighting: Weighting,
    factor: u32,
    work: &mut [u64],
    history: &[u32],
    others: &[u16],
    in_tree: &[u8],
) -> Answer {
    let nodes = graph.nodes();
    if let Some(table) = broken(graph, weighting, delay) {
        return Answer::refused(&[5, table], 0);
    }
    if let Some(refusal) = refusal(nodes, weighting, work, factor, history, others, in_tree) {
        return Answer::refused(&refusal, 0);
    }
    let others: Vec<u32> = others.iter().map(|&o| o as u32).collect();
    let prices = weighting.of(prices(graph, factor, history, &others), delay);
    let found = distances(graph, &prices, &marked(nodes, in_tree));
    work[..nodes].copy_from_slice(&found);
    work[nodes..8 * nodes].fill(0);
    Answer::good(&[])
}

/// A list of sinks for one turn: it counts as table 7, and may be empty or name a node twice.
fn sinks_are_sound(nodes: usize, sinks: &[u16]) -> bool {
    sinks.len() <= MAX_SINKS && sinks.iter().all(|&s| (s as usize) < nodes)
}

/// What a turn alone refuses: 5 of tables 1 to 4, of the sinks as table 7, of table 9 if it is timed, then what the search refuses.
pub fn turn_refusal(
    graph: &Graph,
    weighting: Weighting,
    delay: &[u16],
    factor: u32,
    work: &[u64],
    history: &[u32],
    others: &[u16],
    in_tree: &[u8],
    sinks: &[u16],
) -> Option<Vec<u64>> {
    let nodes = graph.nodes();
    let sinks = if sinks_are_sound(nodes, sinks) { None } else { Some(7) };
    if let Some(table) = graph.broken().or(sinks).or_else(|| broken(graph, weighting, delay)) {
        return Some(vec![5, table]);
    }
    refusal(nodes, weighting, work, factor, history, others, in_tree)
}

/// The place and the node of the nearest sink with a distance that the tree lacks, the first listed of equals. Sinks that are no nodes are
/// passed over.
pub fn nearest(sinks: &[u16], tree: &BTreeSet<usize>, distance: &[u64]) -> Option<(usize, usize)> {
    let open = sinks.iter().map(|&s| s as usize).enumerate();
    let open = open.filter(|(_, s)| *s < distance.len() && !tree.contains(s) && distance[*s] != NO_PATH);
    open.min_by_key(|(_, s)| distance[*s])
}

/// Writes a path at the beginning of the work slice.
pub fn put_path(path: &[usize], work: &mut [u64]) {
    for (entry, node) in work.iter_mut().zip(path) {
        *entry = *node as u64;
    }
}

/// Tables 1 to 4 as one turn reads them, whatever their entries are: every number within its bounds.
pub struct Read {
    kind: Vec<u8>,
    capacity: Vec<u8>,
    first_edge: Vec<u32>,
    edge_target: Vec<u16>,
}

impl Read {
    /// A row ends where table 4 does, and a target that is no node is passed over.
    pub fn new(graph: &Graph) -> Read {
        let nodes = graph.nodes();
        let mut read = Read {
            kind: graph.kind.iter().map(|&k| k.min(MAX_KIND as u8)).collect(),
            capacity: graph.capacity.iter().map(|&c| c.max(1)).collect(),
            first_edge: vec![0],
            edge_target: Vec::new(),
        };
        for row in graph.first_edge.windows(2) {
            let end = (row[1] as usize).min(graph.edge_target.len());
            let targets = graph.edge_target.get(row[0] as usize..end).unwrap_or(&[]);
            read.edge_target.extend(targets.iter().filter(|&&v| (v as usize) < nodes));
            read.first_edge.push(read.edge_target.len() as u32);
        }
        read
    }

    /// The same nodes with the edges for which a test of both nodes holds.
    pub fn with_edges(&self, test: impl Fn(usize, usize) -> bool) -> Read {
        let nodes = self.kind.len();
        let mut read = Read {
            kind: self.kind.clone(),
            capacity: self.capacity.clone(),
            first_edge: vec![0],
            edge_target: Vec::new(),
        };
        for u in 0..nodes {
            read.edge_target.extend((0..nodes).filter(|&v| test(u, v)).map(|v| v as u16));
            read.first_edge.push(read.edge_target.len() as u32);
        }
        read
    }

    pub fn graph(&self) -> Graph<'_> {
        Graph {
            kind: &self.kind,
            capacity: &self.capacity,
            first_edge: &self.first_edge,
            edge_target: &self.edge_target,
        }
    }
}

/// Every node's price, each number read within its bounds.
pub fn read_prices(
    graph: &Graph,
    weighting: Weighting,
    delay: &[u16],
    factor: u32,
    history: &[u32],
    others: &[u16],
) -> Vec<u64> {
    let others: Vec<u32> = others.iter().map(|&o| (o as u32).min(MAX_OTHERS)).collect();
    let history: Vec<u32> = history.iter().map(|&h| h.clamp(1, weighting.most_history())).collect();
    let delay: Vec<u16> = delay.iter().map(|&d| d.min(MAX_DELAY as u16)).collect();
    weighting.read().of(prices(graph, factor.min(MAX_FACTOR), &history, &others), &delay)
}

/// Every list that a turn is lent has the length that its rule asks. Of the lists with an entry a node, delays too, entries past the node
/// count are unread.
pub fn lengths_are_right(
    graph: &Graph,
    weighting: Weighting,
    delay: &[u16],
    work: &[u64],
    history: &[u32],
    others: &[u16],
    in_tree: &[u8],
    sinks: &[u16],
) -> bool {
    let nodes = graph.nodes();
    (1..=MAX_NODES).contains(&nodes)
        && graph.capacity.len() == nodes
        && graph.first_edge.len() == nodes + 1
        && graph.edge_target.len() <= MAX_EDGES
        && work.len() >= 8 * nodes
        && [history.len(), others.len(), in_tree.len()].iter().all(|&long| long >= nodes)
        && sinks.len() <= MAX_SINKS
        && (!weighting.timed || (nodes <= MAX_TIMED_NODES && delay.len() >= nodes))
}

/// One turn alone. Where a length is wrong it tests 5 (the sinks as table 7), 15, 6, 13, as the search does. Otherwise it reads every
/// number within its bounds, passes over sinks that are no nodes, and leaves the path and zeros in 3 × nodes entries of the work slice.
/// Its numbers are the joined sink's place, the cost and the path's length, or none if no unjoined sink has a path.
pub fn cheapest_path(
    kind: &[u8],
    capacity: &[u8],
    first_edge: &[u32],
    edge_target: &[u16],
    weighting: Weighting,
    delay: &[u16],
    factor: u32,
    work: &mut [u64],
    history: &[u32],
    others: &[u16],
    in_tree: &[u8],
    sinks: &[u16],
) -> Answer {
    let lent = Graph { kind, capacity, first_edge, edge_target };
    let nodes = lent.nodes();
    if !lengths_are_right(&lent, weighting, delay, work, history, others, in_tree, sinks) {
        let refusal = turn_refusal(&lent, weighting, delay, factor, work, history, others, in_tree, sinks);
        return Answer::refused(&refusal.expect("a wrong length is refused"), 0);
    }
    let read = Read::new(&lent);
    let graph = read.graph();
    let prices = read_prices(&graph, weighting, delay, factor, history, others);
    let tree = marked(nodes, in_tree);
    let distance = distances(&graph, &prices, &tree);
    work[..3 * nodes].fill(0);
    let Some((place, sink)) = nearest(sinks, &tree, &distance) else {
        return Answer::good(&[]);
    };
    let path = path(&graph, &prices, &distance, &tree, sink);
    put_path(&path, work);
    Answer::good(&[place as u64, distance[sink], path.len() as u64])
}
