//! The negotiation as a machine, with its log.

use crate::aim::expanded;
use crate::join::{joined, Sink};
use crate::price::Tuning;
use crate::search::{distances, path, prices, weighed_prices, NO_PATH};
use crate::tables::{rule_is_sound, Graph, Nets, Timing, MAX_LIMIT, PLAIN_RULE, PLAIN_UNTIL};
use crate::tables::{MAX_TIMED_LIMIT, MAX_TIMED_NODES};
use crate::Answer;
use std::cmp::Reverse;
use std::collections::BTreeSet;

/// Limit, tuning, rule and k, which count as table 8, and whether the job is timed.
#[derive(Clone, Copy)]
pub struct Terms {
    pub limit: u32,
    tuning: Tuning,
    rule: u32,
    until: u32,
    timed: bool,
}

impl Terms {
    /// From a slice in this order; an entry that it lacks has its plain value, and entries past those aren't read.
    pub fn of(slice: &[u32]) -> Terms {
        let plain = Tuning::PLAIN;
        let entry = |place: usize, plain: u32| slice.get(place).copied().unwrap_or(plain);
        Terms {
            limit: entry(0, 0),
            tuning: Tuning {
                first: entry(1, plain.first),
                up: entry(2, plain.up),
                down: entry(3, plain.down),
                step: entry(4, plain.step),
            },
            rule: entry(5, PLAIN_RULE),
            until: entry(6, PLAIN_UNTIL),
            timed: entry(7, 0) != 0,
        }
    }

    fn is_sound(self) -> bool {
        (1..=MAX_LIMIT).contains(&self.limit)
            && self.tuning.is_sound()
            && rule_is_sound(self.rule, self.until)
    }
}

/// The machine's state: a tree is a set of nodes, empty at first.
pub struct State {
    pub iteration: u32,
    pub factor: u32,
    pub histories: Vec<u32>,
    pub trees: Vec<BTreeSet<usize>>,
    pub terms: Terms,
}

/// The log with what has been written, and in an aimed run the nodes expanded over the turns that it logged.
pub struct Log<'a> {
    pub space: &'a mut [u32],
    pub words: usize,
    pub turns: u64,
    pub expanded: Option<u64>,
}

/// How the negotiation ends.
enum End {
    Accepted,
    LogFull,
    Limit { over: u64 },
}

/// The next record doesn't fit.
struct Full;

impl State {
    fn new(nodes: usize, nets: usize, terms: Terms) -> State {
        State {
            iteration: 1,
            factor: 0,
            histories: vec![1; nodes],
            trees: vec![BTreeSet::new(); nets],
            terms,
        }
    }

    /// How many nets have each node in their tree, one net perhaps left out.
    pub fn users(&self, left_out: Option<usize>) -> Vec<u32> {
        let mut users = vec![0; self.histories.len()];
        for (net, tree) in self.trees.iter().enumerate() {
            if Some(net) != left_out {
                for &v in tree {
                    users[v] += 1;
                }
            }
        }
        users
    }

    /// By how much each node's users pass its capacity.
    pub fn overuse(&self, graph: &Graph) -> Vec<u32> {
        let users = self.users(None);
        let over = |v: usize| users[v].saturating_sub(graph.capacity[v] as u32);
        (0..graph.nodes()).map(over).collect()
    }

    /// The nets that drop their tree and make turns in this iteration, by the trees as they are at its start.
    pub fn due(&self, graph: &Graph, nets: &Joined) -> Vec<usize> {
        let overuse = self.overuse(graph);
        let crowded = |net: usize| self.trees[net].iter().any(|&v| overuse[v] > 0);
        let all = self.terms.rule == 1 || self.iteration <= self.terms.until;
        nets.routed().filter(|&net| all || crowded(net)).collect()
    }

    /// Histories, factor and iteration move on.
    pub fn move_on(&mut self, overuse: &[u32]) {
        for (history, over) in self.histories.iter_mut().zip(overuse) {
            *history = self.terms.tuning.next_history(*history, *over);
        }
        self.factor = self.terms.tuning.next_factor(self.iteration, self.factor);
        self.iteration += 1;
    }
}

impl Log<'_> {
    /// Writes a whole record, or nothing if it doesn't fit.
    fn add(&mut self, iteration: u32, net: usize, cost: u64, path: &[usize]) -> Result<(), Full> {
        let sink = path[path.len() - 1] as u32;
        let mut record = vec![iteration, net as u32, sink];
        record.extend([cost as u32, (cost >> 32) as u32, path.len() as u32]);
        record.extend(path.iter().map(|&v| v as u32));
        if record.len() > self.space.len() - self.words {
            return Err(Full);
        }
        self.space[self.words..self.words + record.len()].copy_from_slice(&record);
        self.words += record.len();
        self.turns += 1;
        Ok(())
    }
}

/// The nodes that can be reached from one.
fn reached_from(graph: &Graph, from: usize) -> BTreeSet<usize> {
    let mut reached = BTreeSet::from([from]);
    let mut waiting = vec![from];
    while let Some(u) = waiting.pop() {
        for &target in graph.targets(u) {
            if reached.insert(target as usize) {
                waiting.push(target as usize);
            }
        }
    }
    reached
}

/// What is routed: each net's source, and its sinks after the nets of one source are joined. Those joined into another have none.
/// A timed job has delays.
pub struct Joined<'a> {
    pub source: &'a [u16],
    sinks: Vec<Vec<Sink>>,
    delay: Option<&'a [u16]>,
}

impl Joined<'_> {
    /// The nets that are routed, in order.
    fn routed(&self) -> impl Iterator<Item = usize> + '_ {
        (0..self.sinks.len()).filter(|&net| !self.sinks[net].is_empty())
    }

    /// The sinks that a net's next turn may join: those that its tree lacks, in a timed job the most critical of them alone, the
    /// first listed of equals.
    pub fn open(&self, net: usize, tree: &BTreeSet<usize>) -> Vec<Sink> {
        let unjoined = self.sinks[net].iter().filter(|sink| !tree.contains(&sink.node)).copied();
        if self.delay.is_none() {
            return unjoined.collect();
        }
        unjoined.min_by_key(|sink| Reverse(sink.criticality)).into_iter().collect()
    }

    /// Every node's price in a net's next turn, by the sinks that it may join.
    pub fn prices(&self, graph: &Graph, state: &State, net: usize, open: &[Sink]) -> Vec<u64> {
        let others = state.users(Some(net));
        let prices = prices(graph, state.factor, &state.histories, &others);
        match (self.delay, open) {
            (Some(delay), [sink, ..]) => weighed_prices(&prices, delay, sink.criticality as u32),
            _ => prices,
        }
    }

    /// What the estimates of an aimed turn are weighed by: 10 less the criticality of a timed job's sink.
    fn weight(&self, open: &[Sink]) -> u64 {
        match (self.delay, open) {
            (Some(_), [sink, ..]) => 10 - sink.criticality as u64,
            _ => 1,
        }
    }
}

/// The first net and the first sink place in it without a path from the source.
fn unreachable(graph: &Graph, nets: &Joined) -> Option<(usize, usize)> {
    for net in nets.routed() {
        let reached = reached_from(graph, nets.source[net] as usize);
        let missing = nets.sinks[net].iter().position(|sink| !reached.contains(&sink.node));
        if let Some(place) = missing {
            return Some((net, place));
        }
    }
    None
}

/// The sink of least distance, the first listed of equals.
fn nearest(open: &[Sink], distance: &[u64]) -> Option<usize> {
    let nodes = open.iter().map(|sink| sink.node);
    nodes.filter(|&node| distance[node] != NO_PATH).min_by_key(|&node| distance[node])
}

/// One turn: joins the nearest of the sinks that it may join; false if none was left.
fn turn(graph: &Graph, nets: &Joined, net: usize, state: &mut State, log: &mut Log) -> Result<bool, Full> {
    let open = nets.open(net, &state.trees[net]);
    let prices = nets.prices(graph, state, net, &open);
    let tree = &mut state.trees[net];
    let distance = distances(graph, &prices, tree);
    let Some(sink) = nearest(&open, &distance) else {
        return Ok(false);
    };
    let path = path(graph, &prices, &distance, tree, sink);
    log.add(state.iteration, net, distance[sink], &path)?;
    if let Some(count) = &mut log.expanded {
        let sinks: Vec<usize> = open.iter().map(|sink| sink.node).collect();
        *count += expanded(graph, nets.weight(&open), &sinks, &distance, sink);
    }
    tree.extend(path);
    Ok(true)
}

/// One iteration: each net that is due, in order, drops its tree and makes its turns. The other trees stay.
fn iterate(graph: &Graph, nets: &Joined, state: &mut State, log: &mut Log) -> Result<(), Full> {
    for net in state.due(graph, nets) {
        state.trees[net] = BTreeSet::from([nets.source[net] as usize]);
        while turn(graph, nets, net, state, log)? {}
    }
    Ok(())
}

/// Iterations until one of the three ends.
fn negotiate(graph: &Graph, nets: &Joined, state: &mut State, log: &mut Log) -> End {
    loop {
        if iterate(graph, nets, state, log).is_err() {
            return End::LogFull;
        }
        let overuse = state.overuse(graph);
        let over = overuse.iter().filter(|&&o| o > 0).count() as u64;
        if over == 0 {
            return End::Accepted;
        }
        if state.iteration >= state.terms.limit {
            return End::Limit { over };
        }
        state.move_on(&overuse);
    }
}

/// The lowest table that breaks its rule; the terms are table 8, and an untimed job has none above it.
fn broken(graph: &Graph, nets: &Nets, timing: Option<&Timing>, terms: Terms) -> Option<u64> {
    let tables = graph.broken().or_else(|| nets.broken(graph.kind));
    let terms = if terms.is_sound() { None } else { Some(8) };
    tables.or(terms).or_else(|| timing.and_then(|timing| timing.broken(graph.nodes(), nets.sink.len())))
}

/// A timed job has more nodes or a higher limit than it may.
fn too_large(graph: &Graph, terms: Terms) -> bool {
    terms.timed && (graph.nodes() > MAX_TIMED_NODES || terms.limit > MAX_TIMED_LIMIT)
}

/// Tests 5, 15, 6 and 7, and zeroes the work once it is long enough: the joined nets and the machine's first state, or the refusal.
pub fn tested<'a>(
    graph: &Graph,
    nets: &Nets<'a>,
    timing: Timing<'a>,
    terms: Terms,
    work: &mut [u64],
) -> Result<(Joined<'a>, State), Answer> {
    let nodes = graph.nodes();
    let timing = terms.timed.then_some(timing);
    if let Some(table) = broken(graph, nets, timing.as_ref(), terms) {
        return Err(Answer::refused(&[5, table], 3));
    }
    if too_large(graph, terms) {
        return Err(Answer::refused(&[15, nodes as u64, terms.limit as u64], 3));
    }
    if work.len() < 8 * nodes {
        return Err(Answer::refused(&[6, 8 * nodes as u64], 3));
    }
    work[..8 * nodes].fill(0);
    let sinks = joined(nets, timing.as_ref());
    let joined = Joined { source: nets.source, sinks, delay: timing.map(|timing| timing.delay) };
    if let Some((net, place)) = unreachable(graph, &joined) {
        return Err(Answer::refused(&[7, net as u64, place as u64], 3));
    }
    Ok((joined, State::new(nodes, nets.count(), terms)))
}

/// The answer of a negotiation that goes on from a state and a log.
pub fn negotiated(graph: &Graph, nets: &Joined, state: &mut State, log: &mut Log) -> Answer {
    let end = negotiate(graph, nets, state, log);
    let iteration = state.iteration as u64;
    let refusal = match end {
        End::Accepted => vec![],
        End::LogFull => vec![8, iteration, log.turns],
        End::Limit { over } => vec![9, iteration, over],
    };
    let mut numbers = vec![iteration, log.turns, log.words as u64];
    numbers.extend(log.expanded);
    Answer { refusal, numbers }
}

/// The router: tests 5, 15, 6, 7, then 8 and 9 as they arise. The terms are limit, first, up, down, step, rule, k, and a number that
/// isn't 0 for a timed job.
pub fn route(
    kind: &[u8],
    capacity: &[u8],
    first_edge: &[u32],
    edge_target: &[u16],
    source: &[u16],
    first_sink: &[u32],
    sink: &[u16],
    delay: &[u16],
    criticality: &[u8],
    terms: &[u32],
    work: &mut [u64],
    log: &mut [u32],
) -> Answer {
    let graph = Graph { kind, capacity, first_edge, edge_target };
    let nets = Nets { source, first_sink, sink };
    run(&graph, &nets, Timing { delay, criticality }, Terms::of(terms), work, log, None)
}

/// The same with an aimed search: a fourth number counts the nodes expanded.
pub fn route_aimed(
    kind: &[u8],
    capacity: &[u8],
    first_edge: &[u32],
    edge_target: &[u16],
    source: &[u16],
    first_sink: &[u32],
    sink: &[u16],
    delay: &[u16],
    criticality: &[u8],
    terms: &[u32],
    work: &mut [u64],
    log: &mut [u32],
) -> Answer {
    let graph = Graph { kind, capacity, first_edge, edge_target };
    let nets = Nets { source, first_sink, sink };
    aimed(run(&graph, &nets, Timing { delay, criticality }, Terms::of(terms), work, log, Some(0)))
}

/// Either, with no nodes expanded yet in an aimed run.
fn run(
    graph: &Graph,
    nets: &Nets,
    timing: Timing,
    terms: Terms,
    work: &mut [u64],
    space: &mut [u32],
    expanded: Option<u64>,
) -> Answer {
    match tested(graph, nets, timing, terms, work) {
        Err(refused) => refused,
        Ok((nets, mut state)) => {
            negotiated(graph, &nets, &mut state, &mut Log { space, words: 0, turns: 0, expanded })
        }
    }
}

/// The answer of an aimed call: where it was refused before it began, it expanded nothing.
pub fn aimed(mut answer: Answer) -> Answer {
    answer.numbers.resize(4, 0);
    answer
}
