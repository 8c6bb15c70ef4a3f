//! An audit of a log, whoever wrote it: the first record that doesn't follow the job, or that follows and is no cheapest turn.

use crate::resume::{Lent, Turn};
use crate::route::{tested, Joined, State, Terms};
use crate::search::{distances, NO_PATH};
use crate::tables::{Graph, Nets, Timing};
use crate::Answer;
use std::collections::BTreeSet;

/// Why an audit goes no further.
enum Stop {
    /// The words end here.
    End,
    /// The next record doesn't follow the job, or no record may come here.
    Off,
    /// The next record follows, and a cheaper path is there.
    Dear { cost: u64, least: u64 },
}

/// How far the words have been audited.
struct Audit<'a> {
    words: &'a [u32],
    place: usize,
    turns: u64,
    whole: u64,
    over: u64,
}

/// The least distance of a sink that the turn may join from the net's tree.
fn least(turn: &Turn) -> u64 {
    let prices = turn.nets.prices(turn.graph, turn.state, turn.net, &turn.open);
    let distance = distances(turn.graph, &prices, &turn.state.trees[turn.net]);
    turn.open.iter().map(|sink| distance[sink.node]).min().unwrap_or(NO_PATH)
}

impl Audit<'_> {
    /// The path of the next record, which must be this turn.
    fn turn(&mut self, turn: &Turn) -> Result<Vec<usize>, Stop> {
        let rest = &self.words[self.place..];
        if rest.is_empty() {
            return Err(Stop::End);
        }
        let lent = Lent::of(rest).ok_or(Stop::Off)?;
        let path = turn.follows(&lent).ok_or(Stop::Off)?;
        let least = least(turn);
        if lent.cost > least {
            return Err(Stop::Dear { cost: lent.cost, least });
        }
        self.place += 6 + path.len();
        self.turns += 1;
        Ok(path)
    }

    /// The turns of a net that is due, until its sinks are joined.
    fn net(&mut self, graph: &Graph, nets: &Joined, net: usize, state: &mut State) -> Result<(), Stop> {
        state.trees[net] = BTreeSet::from([nets.source[net] as usize]);
        loop {
            let turn = Turn { graph, nets, state, net, open: nets.open(net, &state.trees[net]) };
            if turn.open.is_empty() {
                return Ok(());
            }
            let path = self.turn(&turn)?;
            state.trees[net].extend(path);
        }
    }

    /// Iterations from 1 on. Behind one that settles, or is the last that the limit allows, only the end may come.
    fn iterations(&mut self, graph: &Graph, nets: &Joined, state: &mut State) -> Result<(), Stop> {
        loop {
            for net in state.due(graph, nets) {
                self.net(graph, nets, net, state)?;
            }
            let overuse = state.overuse(graph);
            self.whole += 1;
            self.over = overuse.iter().filter(|&&over| over > 0).count() as u64;
            if self.place == self.words.len() {
                return Err(Stop::End);
            }
            if self.over == 0 || state.iteration >= state.terms.limit {
                return Err(Stop::Off);
            }
            state.move_on(&overuse);
        }
    }
}

/// The audit: tests 5, 15, 6, 7, then the words used of the log. Own numbers are the turns before the one told, of a sound log all, the
/// iterations that are whole, the nodes over capacity after the last of them, and the least cost of the turn told, which is no refusal.
pub fn audit(
    kind: &[u8],
    capacity: &[u8],
    first_edge: &[u32],
    edge_target: &[u16],
    source: &[u16],
    first_sink: &[u32],
    sink: &[u16],
    delay: &[u16],
    criticality: &[u8],
    terms: &[u32],
    used: u64,
    work: &mut [u64],
    log: &[u32],
) -> Answer {
    let graph = Graph { kind, capacity, first_edge, edge_target };
    let listed = Nets { source, first_sink, sink };
    let (nets, mut state) =
        match tested(&graph, &listed, Timing { delay, criticality }, Terms::of(terms), work) {
            Ok(begun) => begun,
            Err(refused) => return Answer::refused(&refused.refusal, 4),
        };
    if used > log.len() as u64 {
        return Answer::refused(&[14, log.len() as u64], 4);
    }
    let mut audit = Audit { words: &log[..used as usize], place: 0, turns: 0, whole: 0, over: 0 };
    let stop = audit.iterations(&graph, &nets, &mut state).err().unwrap_or(Stop::End);
    let told = |least| vec![audit.turns, audit.whole, audit.over, least];
    match stop {
        Stop::End => Answer { refusal: Vec::new(), numbers: told(0) },
        Stop::Off => Answer::refused(&[14, audit.place as u64], 4),
        Stop::Dear { cost, least } => {
            Answer { refusal: vec![18, audit.place as u64, cost], numbers: told(least) }
        }
    }
}
