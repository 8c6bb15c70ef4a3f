//! Going on from a finished log: whether it follows the job, what is rebuilt from it, and the turns after it.

use crate::join::Sink;
use crate::route::{aimed, negotiated, tested, Joined, Log, State, Terms};
use crate::tables::{Graph, Nets, Timing};
use crate::Answer;
use std::collections::BTreeSet;

/// The log doesn't follow the job: the word of the first record that doesn't, or of the end where only that is wrong.
struct Off(usize);

/// A whole record as it was lent. Nothing in it is known to be sound.
pub struct Lent<'a> {
    iteration: u32,
    net: u32,
    sink: u32,
    pub cost: u64,
    path: &'a [u32],
}

impl Lent<'_> {
    /// The record at the front of these words, unless it is cut short.
    pub fn of(words: &[u32]) -> Option<Lent<'_>> {
        let &[iteration, net, sink, low, high, length, ref rest @ ..] = words else { return None };
        let path = rest.get(..length as usize)?;
        Some(Lent { iteration, net, sink, cost: (high as u64) << 32 | low as u64, path })
    }
}

/// The words used, with how far they have been taken up.
struct Replay<'a> {
    words: &'a [u32],
    place: usize,
    turns: u64,
}

/// A net with its tree before one of its turns, and the sinks that the turn may join: in a timed job the one whose turn it is.
pub struct Turn<'a> {
    pub graph: &'a Graph<'a>,
    pub nets: &'a Joined<'a>,
    pub state: &'a State,
    pub net: usize,
    pub open: Vec<Sink>,
}

impl Turn<'_> {
    fn in_tree(&self, node: usize) -> bool {
        self.state.trees[self.net].contains(&node)
    }

    fn is_open(&self, node: usize) -> bool {
        self.open.iter().any(|sink| sink.node == node)
    }

    /// The path of a record, if the record can be this turn.
    pub fn follows(&self, lent: &Lent) -> Option<Vec<usize>> {
        let path: Vec<usize> = lent.path.iter().map(|&node| node as usize).collect();
        let good = lent.iteration == self.state.iteration
            && lent.net as usize == self.net
            && self.along_edges(&path)
            && no_node_twice(&path)
            && self.first_alone_in_tree(&path)
            && path.last() == Some(&(lent.sink as usize))
            && self.is_open(lent.sink as usize)
            && self.no_other_open(lent.sink as usize, &path)
            && lent.cost == self.cost(&path);
        good.then_some(path)
    }

    fn along_edges(&self, path: &[usize]) -> bool {
        path.iter().all(|&node| node < self.graph.nodes())
            && path.windows(2).all(|step| self.graph.has_edge(step[0], step[1]))
    }

    fn first_alone_in_tree(&self, path: &[usize]) -> bool {
        let in_tree = path.iter().enumerate().filter(|(_, &node)| self.in_tree(node));
        in_tree.map(|(place, _)| place).eq([0])
    }

    /// In a timed job no other sink is open, so that a path may pass any.
    fn no_other_open(&self, sink: usize, path: &[usize]) -> bool {
        path.iter().all(|&node| node == sink || !self.is_open(node))
    }

    /// The sum of the prices of a path's nodes but the first.
    fn cost(&self, path: &[usize]) -> u64 {
        let prices = self.nets.prices(self.graph, self.state, self.net, &self.open);
        path.iter().skip(1).map(|&node| prices[node]).sum()
    }
}

fn no_node_twice(path: &[usize]) -> bool {
    path.iter().collect::<BTreeSet<_>>().len() == path.len()
}

impl Replay<'_> {
    /// Takes up the turns of a net that is due, until its sinks are joined.
    fn net(&mut self, graph: &Graph, nets: &Joined, net: usize, state: &mut State) -> Result<(), Off> {
        state.trees[net] = BTreeSet::from([nets.source[net] as usize]);
        loop {
            let turn = Turn { graph, nets, state, net, open: nets.open(net, &state.trees[net]) };
            if turn.open.is_empty() {
                return Ok(());
            }
            let lent = Lent::of(&self.words[self.place..]).ok_or(Off(self.place))?;
            let path = turn.follows(&lent).ok_or(Off(self.place))?;
            self.place += 6 + path.len();
            self.turns += 1;
            state.trees[net].extend(path);
        }
    }

    /// Takes up iterations, one or more, up to the end of the words: each leaves a node overfull, and the last is below the limit. Then
    /// histories and factor have moved on, and the next iteration begins.
    fn iterations(&mut self, graph: &Graph, nets: &Joined, state: &mut State) -> Result<(), Off> {
        loop {
            for net in state.due(graph, nets) {
                self.net(graph, nets, net, state)?;
            }
            let overuse = state.overuse(graph);
            let settled = overuse.iter().all(|&over| over == 0);
            if settled || state.iteration >= state.terms.limit {
                return Err(Off(self.place));
            }
            state.move_on(&overuse);
            if self.place == self.words.len() {
                return Ok(());
            }
        }
    }
}

/// Takes up the lent log: the turns in it, and in the state what is rebuilt from them.
fn take_up(graph: &Graph, nets: &Joined, state: &mut State, used: u64, log: &[u32]) -> Result<u64, Off> {
    if used > log.len() as u64 {
        return Err(Off(log.len()));
    }
    let mut replay = Replay { words: &log[..used as usize], place: 0, turns: 0 };
    replay.iterations(graph, nets, state)?;
    Ok(replay.turns)
}

/// Resume: tests 5, 15, 6, 7, then 14, then 8 and 9 as they arise. The lent log is the words used, and turns are appended to it.
pub fn resume(
    kind: &[u8],
    capacity: &[u8],
    first_edge: &[u32],
    edge_target: &[u16],
    source: &[u16],
    first_sink: &[u32],
    sink: &[u16],
    delay: &[u16],
    criticality: &[u8],
    terms: &[u32],
    used: u64,
    work: &mut [u64],
    log: &mut [u32],
) -> Answer {
    let graph = Graph { kind, capacity, first_edge, edge_target };
    let nets = Nets { source, first_sink, sink };
    run(&graph, &nets, Timing { delay, criticality }, Terms::of(terms), used, work, log, None)
}

/// The same with an aimed search: a fourth number counts the nodes expanded over the appended turns.
pub fn resume_aimed(
    kind: &[u8],
    capacity: &[u8],
    first_edge: &[u32],
    edge_target: &[u16],
    source: &[u16],
    first_sink: &[u32],
    sink: &[u16],
    delay: &[u16],
    criticality: &[u8],
    terms: &[u32],
    used: u64,
    work: &mut [u64],
    log: &mut [u32],
) -> Answer {
    let graph = Graph { kind, capacity, first_edge, edge_target };
    let nets = Nets { source, first_sink, sink };
    aimed(run(&graph, &nets, Timing { delay, criticality }, Terms::of(terms), used, work, log, Some(0)))
}

/// Either, with no nodes expanded yet in an aimed run.
fn run(
    graph: &Graph,
    nets: &Nets,
    timing: Timing,
    terms: Terms,
    used: u64,
    work: &mut [u64],
    space: &mut [u32],
    expanded: Option<u64>,
) -> Answer {
    let (nets, mut state) = match tested(graph, nets, timing, terms, work) {
        Ok(begun) => begun,
        Err(refused) => return refused,
    };
    match take_up(graph, &nets, &mut state, used, space) {
        Err(Off(word)) => Answer::refused(&[14, word as u64], 3),
        Ok(turns) => {
            negotiated(graph, &nets, &mut state, &mut Log { space, words: used as usize, turns, expanded })
        }
    }
}
