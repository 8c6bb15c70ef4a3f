//! The block router of 01 and 02, written for speed, for jobs whose tables are sound.
//!
//! Three ways, each faster than the one before:
//! - Heap: each turn searches anew with a binary heap and stops at the first open sink that it settles.
//! - Pruned: besides, a turn stops when no open sink can still get a label as low as the best one, and pins
//!   that lead only to leaves which aren't sinks of the net are never searched from.
//! - Carried: besides, a net's search goes on from turn to turn: its prices stay the same, so the joined path
//!   gets label 0 and only what lies nearer to it is labelled again.
//!
//! In all three prices stand in a table in which only nodes whose users change get a new one, and iteration 1 is
//! routed before anything is logged, so that refusal 7 needs no search of its own.

mod graph;
mod nets;
mod prices;
mod search;

use graph::Graph;
use nets::Nets;
use prices::{Prices, Tuning};
use search::{Heap, Key, Search, SHORT_KEY};

/// What a call answers: refusal is empty after acceptance.
#[derive(Clone, Debug, PartialEq, Eq)]
pub struct Outcome {
    pub refusal: Vec<u64>,
    pub iteration: u64,
    pub turns: u64,
    pub words: u64,
}

/// How a turn searches.
#[derive(Clone, Copy, Debug, PartialEq, Eq)]
pub enum Way {
    Heap,
    Pruned,
    Carried,
}

pub const WAYS: [Way; 3] = [Way::Heap, Way::Pruned, Way::Carried];

/// Routes an untimed job with sound tables and terms: limit, first, up, down, step, rule, the last iteration before rule 2 holds, and the
/// 0 that says so.
pub fn route(
    way: Way,
    kind: &[u8],
    capacity: &[u8],
    first_edge: &[u32],
    edge_target: &[u16],
    source: &[u16],
    first_sink: &[u32],
    sink: &[u16],
    terms: [u32; 8],
    log: &mut [u32],
) -> Outcome {
    let [limit, first, up, down, step, rule, until, timed] = terms;
    assert_eq!(timed, 0, "timed jobs aren't routed here");
    let rule_1 = if rule == 1 { limit } else { until };
    let [first, up, down, step] = [first, up, down, step].map(u64::from);
    let prices = Prices::new(kind, capacity, Tuning { first, up, down, step });
    let nets = Nets::joined(kind.len(), source, first_sink, sink);
    let graph = Graph::new(first_edge, edge_target);
    match way {
        Way::Heap => Router::<false, false>::new(prices, graph, nets).run(limit, rule_1, log),
        Way::Pruned => Router::<true, false>::new(prices, graph, nets).run(limit, rule_1, log),
        Way::Carried => Router::<true, true>::new(prices, graph, nets).run(limit, rule_1, log),
    }
}

/// The state of a negotiation. PRUNE and CARRY: see the ways.
struct Router<'a, const PRUNE: bool, const CARRY: bool> {
    nets: Nets<'a>,
    prices: Prices<'a>,
    search: Search<'a, PRUNE, CARRY>,
    trees: Vec<Vec<u16>>,
    /// Records that are made but not yet in the log.
    made: Vec<u32>,
}

/// A net's sink without a path.
struct NoPath {
    net: usize,
    place: usize,
}

impl<'a, const PRUNE: bool, const CARRY: bool> Router<'a, PRUNE, CARRY> {
    fn new(prices: Prices<'a>, graph: Graph<'a>, nets: Nets<'a>) -> Self {
        let trees = vec![Vec::new(); nets.source.len()];
        Router { search: Search::new(prices.nodes(), graph), prices, trees, nets, made: Vec::new() }
    }

    /// Under rule 1 up to an iteration, under rule 2 after it.
    fn run(mut self, limit: u32, rule_1: u32, words: &mut [u32]) -> Outcome {
        let mut log = Log { words, used: 0, turns: 0 };
        let mut iteration = 1;
        loop {
            self.prices.fill(&mut self.search.nodes);
            let due = self.due(iteration <= rule_1);
            let whole = if self.prices.worst_path(self.nets.source.len()) < SHORT_KEY {
                self.iterate::<u64>(iteration, &due, &mut log)
            } else {
                self.iterate::<u128>(iteration, &due, &mut log)
            };
            match whole {
                Err(none) => return unreachable(none),
                Ok(false) => return log.answer(vec![8, iteration as u64, log.turns], iteration),
                Ok(true) => {}
            }
            let over = self.prices.count_over();
            if over == 0 {
                return log.answer(Vec::new(), iteration);
            }
            if iteration == limit {
                return log.answer(vec![9, iteration as u64, over], iteration);
            }
            self.prices.step();
            iteration += 1;
        }
    }

    /// The nets to be routed in an iteration that begins with these trees: of those with sinks all, or those with an overfull node.
    fn due(&self, all: bool) -> Vec<usize> {
        let crowded = |net: usize| self.trees[net].iter().any(|&v| self.prices.overfull(v));
        let nets = 0..self.nets.source.len();
        nets.filter(|&net| !self.nets.sinks(net).is_empty() && (all || crowded(net))).collect()
    }

    /// Routes every due net once. False when the log is full.
    fn iterate<K: Key>(&mut self, iteration: u32, due: &[usize], log: &mut Log) -> Result<bool, NoPath> {
        let mut heap = Heap::<K>::new();
        for &net in due {
            self.route_net(iteration, net, &mut heap)?;
            if iteration > 1 && !log.take(&mut self.made) {
                return Ok(false);
            }
        }
        // In iteration 1 the log waits until every sink is known to have a path.
        Ok(iteration > 1 || log.take(&mut self.made))
    }

    fn route_net<K: Key>(&mut self, iteration: u32, net: usize, heap: &mut Heap<K>) -> Result<(), NoPath> {
        let tree = &mut self.trees[net];
        self.prices.leave(tree, &mut self.search.nodes);
        let sinks = self.nets.sinks(net);
        self.search.begin(self.nets.source[net], sinks, tree, heap);
        while let Some(&first_open) = self.search.open.first() {
            let Some(cost) = self.search.nearest(tree, heap) else {
                let place = sinks.iter().position(|&s| s == first_open).unwrap_or(0);
                return Err(NoPath { net, place });
            };
            let path = self.search.join(cost, tree, heap);
            record(&mut self.made, iteration, net, cost, path);
        }
        self.search.end(sinks, heap);
        self.prices.enter(tree, &mut self.search.nodes);
        Ok(())
    }
}

/// Adds a turn's record. The path comes from sink to tree.
fn record(made: &mut Vec<u32>, iteration: u32, net: usize, cost: u64, path: &[u16]) {
    let head = [iteration, net as u32, path[0] as u32, cost as u32, (cost >> 32) as u32, path.len() as u32];
    made.extend_from_slice(&head);
    made.extend(path.iter().rev().map(|&v| v as u32));
}

fn unreachable(none: NoPath) -> Outcome {
    let refusal = vec![7, none.net as u64, none.place as u64];
    Outcome { refusal, iteration: 0, turns: 0, words: 0 }
}

/// The lent log.
struct Log<'a> {
    words: &'a mut [u32],
    used: usize,
    turns: u64,
}

impl Log<'_> {
    /// Moves records into the log, in order, until one doesn't fit. False if one is left.
    fn take(&mut self, made: &mut Vec<u32>) -> bool {
        let room = self.words.len() - self.used;
        let mut end = 0;
        while end < made.len() {
            let next = end + 6 + made[end + 5] as usize;
            if next > room {
                break;
            }
            end = next;
            self.turns += 1;
        }
        self.words[self.used..self.used + end].copy_from_slice(&made[..end]);
        self.used += end;
        let whole = end == made.len();
        made.clear();
        whole
    }

    fn answer(&self, refusal: Vec<u64>, iteration: u32) -> Outcome {
        Outcome { refusal, iteration: iteration as u64, turns: self.turns, words: self.used as u64 }
    }
}
