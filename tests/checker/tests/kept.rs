//! Logs in which a net has no record in an iteration: its tree stays, in prices, histories and the final trees.

mod common;

use checker::Fault;
use common::*;
use job::Job;

/// Net 0 has wires 3 and 4, net 1 wire 3 alone, net 2 wires 4 and 5.
fn between(limit: u32) -> Job {
    let edges = [(0, 3), (0, 4), (1, 3), (2, 4), (2, 5), (3, 6), (3, 7), (4, 6), (4, 8), (5, 8)];
    tables(&[0, 0, 0, 4, 4, 6, 1, 1, 1], &edges, &[(0, &[6]), (1, &[7]), (2, &[8])], limit)
}

/// Iteration 2 has no record of net 2, iteration 3 none of net 1.
const BETWEEN_LOG: [u32; 63] = [
    1, 0, 6, 4000, 0, 3, 0, 3, 6, //
    1, 1, 7, 4000, 0, 3, 1, 3, 7, //
    1, 2, 8, 4000, 0, 3, 2, 4, 8, //
    2, 0, 6, 5000, 0, 3, 0, 4, 6, //
    2, 1, 7, 6000, 0, 3, 1, 3, 7, //
    3, 0, 6, 9000, 0, 3, 0, 3, 6, //
    3, 2, 8, 6000, 0, 3, 2, 4, 8,
];

#[test]
fn kept_trees_count() {
    assert_eq!(between(3).check(&BETWEEN_LOG, &[9, 3, 1], 3, 7), Ok(()));
    assert_eq!(between(2).check(&BETWEEN_LOG[..45], &[9, 2, 1], 2, 5), Ok(()));
    // The tree that net 2 keeps shares wire 4 with the new one of net 0.
    let overfull = Fault::Overfull { node: 4, load: 2, capacity: 1 };
    assert_eq!(between(2).check(&BETWEEN_LOG[..45], &[], 2, 5), Err(overfull));
}

/// Without net 2's tree among the others, wire 4 would cost net 0 only 2,000.
#[test]
fn kept_trees_are_in_the_prices() {
    let cheaper = with(&BETWEEN_LOG, &[(30, 4000)]);
    let fault = Fault::Cost { turn: 3, logged: 4000, path: 5000 };
    assert_eq!(between(3).check(&cheaper, &[9, 3, 1], 3, 7), Err(fault));
}

/// Without it among the users of iteration 2, wire 4 would have history 1 in iteration 3, and net 2 would pay 4,000 for it.
#[test]
fn kept_trees_are_in_the_histories() {
    let cheaper = with(&BETWEEN_LOG, &[(57, 4000)]);
    let fault = Fault::Cost { turn: 6, logged: 4000, path: 6000 };
    assert_eq!(between(3).check(&cheaper, &[9, 3, 1], 3, 7), Err(fault));
}

/// Job B's log without its last record: net 1 keeps its tree, and the final trees are of two iterations.
#[test]
fn final_trees_are_the_latest_ones() {
    let log = &B_LOG[..27];
    assert_eq!(b(2).check(log, &[], 2, 3), Ok(()));
    // Without any record net 1 has no tree.
    let none = with(&log[..18], &[(9, 2), (10, 0), (11, 4), (12, 4000), (15, 0), (17, 4)]);
    assert_eq!(b(2).check(&none, &[], 2, 2), Err(Fault::MissedSink { net: 1, sink: 5 }));
    // An iteration of no net at all has no record.
    let gap = with(log, &[(18, 3)]);
    assert_eq!(b(3).check(&gap, &[], 3, 3), Err(Fault::Iteration { turn: 2, iteration: 3 }));
}
