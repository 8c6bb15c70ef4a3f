//! One turn alone: what it is lent, as a case of the program, and the line that the plain crate expects.

use crate::blocks::{edges, Back, Pair};
use job::Rng;
use plain::{aimed_path, Answer, Weighting};
use std::fmt::Display;

pub struct Turn {
    pub back_kind: Back,
    pub weighting: Weighting,
    kind: Vec<u8>,
    capacity: Vec<u8>,
    source: Pair,
    back: Pair,
    factor: u32,
    delay: Vec<u16>,
    history: Vec<u32>,
    others: Vec<u16>,
    in_tree: Vec<u8>,
    sinks: Vec<u16>,
    work: usize,
}

/// What the work slice holds before the call.
const BEFORE: u64 = 7;

/// An entry for each node: of the good ones, in one list of ten of the bad ones too.
fn entries<T: Copy>(rng: &mut Rng, nodes: usize, good: &[T], bad: &[T]) -> Vec<T> {
    let wrong = rng.once_in(10);
    (0..nodes).map(|_| if wrong && rng.once_in(3) { rng.pick(bad) } else { rng.pick(good) }).collect()
}

impl Turn {
    pub fn new(rng: &mut Rng) -> Turn {
        let nodes = if rng.once_in(12) { rng.within(1, 3) } else { rng.within(4, 9) };
        let kinds = [Back::Belongs, Back::Belongs, Back::Edges, Back::Edges, Back::Other, Back::Damaged];
        let back_kind = if rng.once_in(20) { Back::Length } else { rng.pick(&kinds) };
        let edges = edges(rng, nodes);
        let back = Pair::back(rng, &edges, back_kind);
        let source = Pair::by_source(&edges);
        let source = if rng.once_in(8) { source.damaged(rng) } else { source };
        let timed = rng.percent(30);
        let criticality = rng.pick(&[0, 1, 5, 8, 9, 9, 10, u32::MAX]);
        let mut turn = Turn {
            back_kind,
            weighting: Weighting { timed, criticality: if timed { criticality } else { 0 } },
            kind: entries(rng, nodes, &[0, 1, 3, 4, 4, 5, 6, 53], &[54, 55, 255]),
            capacity: entries(rng, nodes, &[1, 1, 2, 255], &[0]),
            source,
            back,
            factor: rng.pick(&[0, 50, 50, 75, 65_535, 65_536, u32::MAX]),
            delay: if timed {
                entries(rng, nodes, &[0, 0, 1, 20, 40, 1_000], &[1_001, u16::MAX])
            } else {
                vec![]
            },
            history: entries(rng, nodes, &[1, 1, 1, 2, 3, 39_859], &[0, 39_860, 101_179, 101_180, u32::MAX]),
            others: entries(rng, nodes, &[0, 0, 0, 1, 2, 511], &[512, u16::MAX]),
            in_tree: entries(rng, nodes, &[0, 0, 1], &[2, 255]),
            sinks: (0..rng.pick(&[0, 1, 2, 2, 3, 4])).map(|_| rng.below(nodes) as u16).collect(),
            work: 8 * nodes + rng.below(3),
        };
        if rng.once_in(8) {
            turn.sinks.push(rng.pick(&[nodes as u16, 4_096, u16::MAX]));
        }
        if rng.once_in(15) {
            turn.other_length(rng);
        }
        turn
    }

    /// Another length of one of the lists but those by target.
    fn other_length(&mut self, rng: &mut Rng) {
        match rng.below(8) {
            0 => self.work = rng.below(8 * self.kind.len()),
            1 => self.history.truncate(rng.below(self.history.len() + 1)),
            2 => self.others.truncate(rng.below(self.others.len() + 1)),
            3 => self.in_tree.truncate(rng.below(self.in_tree.len() + 1)),
            4 => self.capacity.push(1),
            5 => self.source.first.push(self.source.ends.len() as u32),
            6 => self.delay.truncate(rng.below(self.delay.len() + 1)),
            _ => self.history.push(0),
        }
    }

    /// The case of this place in a file.
    pub fn case(&self, place: usize) -> String {
        let call = if self.weighting.timed {
            format!("timed_aimed {} {}", self.factor, self.weighting.criticality)
        } else {
            format!("aimed {}", self.factor)
        };
        let mut lines = vec![place.to_string(), call];
        lines.push(list("kind", &self.kind));
        lines.push(list("capacity", &self.capacity));
        lines.push(list("first_edge", &self.source.first));
        lines.push(list("edge_target", &self.source.ends));
        if self.weighting.timed {
            lines.push(list("delay", &self.delay));
        }
        lines.push(list("history", &self.history));
        lines.push(list("others", &self.others));
        lines.push(list("in_tree", &self.in_tree));
        lines.push(list("sinks", &self.sinks));
        lines.push(list("work", &vec![BEFORE; self.work]));
        lines.push(list("first_back", &self.back.first));
        lines.push(list("back_source", &self.back.ends));
        lines.join("\n") + "\n"
    }

    /// What the plain crate answers, and the line of it.
    pub fn expected(&self, place: usize) -> (Answer, String) {
        let mut work = vec![BEFORE; self.work];
        let answer = aimed_path(
            &self.kind,
            &self.capacity,
            &self.source.first,
            &self.source.ends,
            &self.back.first,
            &self.back.ends,
            self.weighting,
            &self.delay,
            self.factor,
            &mut work,
            &self.history,
            &self.others,
            &self.in_tree,
            &self.sinks,
        );
        let refused = answer.refusal.iter().map(|number| format!(",{number}")).collect::<String>();
        let refused = if refused.is_empty() { refused } else { format!(" X{refused}") };
        let line = format!("{place}: aimed{refused} {} {}", list("=", &answer.numbers), list("|", &work));
        (answer, line)
    }
}

/// A name and entries, each after a blank.
fn list<T: Display>(name: &str, entries: &[T]) -> String {
    entries.iter().fold(name.to_string(), |line, entry| format!("{line} {entry}"))
}
