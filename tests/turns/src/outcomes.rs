//! How often each outcome was met.

use crate::blocks::Back;
use crate::turn::Turn;
use plain::Answer;
use std::collections::BTreeMap;

/// Every outcome of a turn with each kind of tables by target.
const NAMES: [&str; 13] = [
    "belongs, joined",
    "belongs, stuck",
    "edges, joined",
    "edges, stuck",
    "other, joined",
    "other, stuck",
    "damaged, joined",
    "damaged, stuck",
    "length, refused",
    "refused 5",
    "refused 6",
    "refused 13",
    "timed, joined",
];

#[derive(Default)]
pub struct Outcomes(BTreeMap<&'static str, u64>);

impl Outcomes {
    pub fn add(&mut self, turn: &Turn, answer: &Answer) {
        let joined = answer.numbers.len() > 1;
        match answer.refusal.first() {
            Some(5) if turn.back_kind == Back::Length => self.count("length, refused"),
            Some(5) => self.count("refused 5"),
            Some(6) => self.count("refused 6"),
            Some(13) => self.count("refused 13"),
            Some(_) => {}
            None => self.count(match (turn.back_kind, joined) {
                (Back::Belongs, true) => "belongs, joined",
                (Back::Belongs, false) => "belongs, stuck",
                (Back::Edges, true) => "edges, joined",
                (Back::Edges, false) => "edges, stuck",
                (Back::Other, true) => "other, joined",
                (Back::Other, false) => "other, stuck",
                (Back::Damaged | Back::Length, true) => "damaged, joined",
                (Back::Damaged | Back::Length, false) => "damaged, stuck",
            }),
        }
        if joined && turn.weighting.timed {
            self.count("timed, joined");
        }
    }

    fn count(&mut self, name: &'static str) {
        *self.0.entry(name).or_default() += 1;
    }

    pub fn print(&self) {
        for name in NAMES {
            println!("{:8} {name}", self.0.get(name).unwrap_or(&0));
        }
    }

    pub fn missing(&self) -> Vec<&'static str> {
        NAMES.into_iter().filter(|name| !self.0.contains_key(name)).collect()
    }
}
