//! Logs of which the first words were lent: their turns need not be cheapest.

mod common;

use checker::{check_resumed, Fault};
use common::*;
use job::Job;

/// Two nets to one sink of capacity 1, by wire 2 or, for net 0, by the longer wire 3.
fn one_sink() -> Job {
    tables(&[0, 0, 4, 5, 1], &[(0, 2), (0, 3), (1, 2), (2, 4), (3, 4)], &[(0, &[4]), (1, &[4])], 2)
}

/// In iteration 1 net 0 pays 6,000 where 4,000 is the least. In iteration 2 sink 4 has history 2: 2 x 20 x 150, after 20 x 150 for wire 2.
const LENT_LOG: [u32; 36] = [
    1, 0, 4, 6000, 0, 3, 0, 3, 4, //
    1, 1, 4, 4000, 0, 3, 1, 2, 4, //
    2, 0, 4, 9000, 0, 3, 0, 2, 4, //
    2, 1, 4, 9000, 0, 3, 1, 2, 4,
];

/// The checker on a log whose first words, so many, were lent.
fn check(lent: u64, log: &[u32], turns: u64) -> Result<(), Fault> {
    check_resumed(&one_sink().job(), lent, log, &[9, 2, 2], 2, turns, log.len() as u64)
}

#[test]
fn lent_turns_need_not_be_cheapest() {
    let cheaper = Fault::CheaperPath { turn: 0, logged: 6000, least: 4000 };
    assert_eq!(check(0, &LENT_LOG, 4), Err(cheaper));
    assert_eq!(check(18, &LENT_LOG, 4), Ok(()));
    assert_eq!(check(9, &LENT_LOG, 4), Ok(()));
}

#[test]
fn appended_turns_are_cheapest() {
    // Net 0 on wire 3 again: 4,000 and the sink's 6,000.
    let longer = with(&LENT_LOG, &[(21, 10000), (25, 3), (30, 8000)]);
    let cheaper = Fault::CheaperPath { turn: 2, logged: 10000, least: 9000 };
    assert_eq!(check(18, &longer, 4), Err(cheaper));
}

/// Everything else is asked of the lent turns too, and turns and words count the whole log.
#[test]
fn all_else_holds_of_the_whole_log() {
    let cost = Fault::Cost { turn: 0, logged: 6001, path: 6000 };
    assert_eq!(check(18, &with(&LENT_LOG, &[(3, 6001)]), 4), Err(cost));
    let edge = Fault::NoEdge { turn: 1, from: 1, to: 3 };
    assert_eq!(check(18, &with(&LENT_LOG, &[(16, 3)]), 4), Err(edge));
    assert_eq!(check(18, &LENT_LOG, 2), Err(Fault::TurnCount { reported: 2, logged: 4 }));
    assert_eq!(check(17, &LENT_LOG, 4), Err(Fault::CutRecord { turn: 1, word: 9 }));
}
