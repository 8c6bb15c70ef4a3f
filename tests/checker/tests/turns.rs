//! The clauses about records and turns.

mod common;

use checker::{check, Fault};
use common::*;

fn b_fault(changes: &[(usize, u32)]) -> Fault {
    b(2).check(&with(&B_LOG, changes), &[], 2, 4).unwrap_err()
}

#[test]
fn logs_of_01_pass() {
    assert_eq!(b(2).check(&B_LOG, &[], 2, 4), Ok(()));
    assert_eq!(c().check(&C_LOG, &[], 1, 2), Ok(()));
}

#[test]
fn words_past_those_used_are_not_read() {
    let mut log = B_LOG.to_vec();
    log.extend([7, 7, 7]);
    assert_eq!(check(&b(2).job(), &log, &[], 2, 4, 36), Ok(()));
    assert_eq!(check(&b(2).job(), &log, &[], 2, 4, 39), Err(Fault::CutRecord { turn: 4, word: 36 }));
}

#[test]
fn wrong_words() {
    let b = b(2);
    let words = |words| check(&b.job(), &B_LOG, &[], 2, 4, words);
    assert_eq!(words(35), Err(Fault::CutRecord { turn: 3, word: 27 }));
    assert_eq!(words(28), Err(Fault::CutRecord { turn: 3, word: 27 }));
    assert_eq!(words(27), Err(Fault::TurnCount { reported: 4, logged: 3 }));
    assert_eq!(words(37), Err(Fault::WordsBeyondLog { words: 37, log: 36 }));
    assert_eq!(words(u64::MAX), Err(Fault::WordsBeyondLog { words: u64::MAX, log: 36 }));
}

#[test]
fn wrong_turns() {
    for turns in [0, 3, 5, u64::MAX] {
        let fault = b(2).check(&B_LOG, &[], 2, turns);
        assert_eq!(fault, Err(Fault::TurnCount { reported: turns, logged: 4 }));
    }
}

#[test]
fn wrong_iteration() {
    assert_eq!(b_fault(&[(0, 0)]), Fault::Iteration { turn: 0, iteration: 0 });
    assert_eq!(b_fault(&[(0, 2)]), Fault::Iteration { turn: 0, iteration: 2 });
    assert_eq!(b_fault(&[(18, 3)]), Fault::Iteration { turn: 2, iteration: 3 });
    assert_eq!(b_fault(&[(27, 1)]), Fault::Iteration { turn: 3, iteration: 1 });
    let beyond = b(1).check(&B_LOG, &[], 2, 4);
    assert_eq!(beyond, Err(Fault::Iteration { turn: 2, iteration: 2 }));
}

#[test]
fn unknown_net_or_node() {
    assert_eq!(b_fault(&[(10, 2)]), Fault::UnknownNet { turn: 1, net: 2 });
    assert_eq!(b_fault(&[(25, 6)]), Fault::UnknownNode { turn: 2, node: 6 });
    assert_eq!(b_fault(&[(6, u32::MAX)]), Fault::UnknownNode { turn: 0, node: u32::MAX });
}

#[test]
fn empty_path() {
    let fault = b(2).check(&[1, 0, 4, 0, 0, 0], &[], 1, 1);
    assert_eq!(fault, Err(Fault::EmptyPath { turn: 0 }));
}

#[test]
fn missing_edge() {
    // Node 1 has no edge to 3.
    assert_eq!(b_fault(&[(34, 3)]), Fault::NoEdge { turn: 3, from: 1, to: 3 });
    let jump = [1, 0, 4, 2000, 0, 2, 0, 4];
    assert_eq!(b(2).check(&jump, &[], 1, 1), Err(Fault::NoEdge { turn: 0, from: 0, to: 4 }));
}

#[test]
fn start_outside_tree() {
    assert_eq!(b_fault(&[(24, 1), (25, 2)]), Fault::StartOutsideTree { turn: 2, node: 1 });
    // Node 2 was in net 0's tree one iteration earlier.
    let mut log = B_LOG[..18].to_vec();
    log.extend([2, 0, 4, 2000, 0, 2, 2, 4]);
    let fault = b(2).check(&log, &[], 2, 3);
    assert_eq!(fault, Err(Fault::StartOutsideTree { turn: 2, node: 2 }));
}

#[test]
fn wrong_sink() {
    assert_eq!(b_fault(&[(2, 5)]), Fault::EndNotSink { turn: 0, end: 4, sink: 5 });
    assert_eq!(b_fault(&[(2, 5), (8, 5)]), Fault::NotSinkOfNet { turn: 0, sink: 5 });
    assert_eq!(b_fault(&[(2, 65_540)]), Fault::EndNotSink { turn: 0, end: 4, sink: 65_540 });
}

#[test]
fn joined_sink() {
    let twice = with(&C_LOG, &[(11, 3), (16, 3)]);
    let fault = c().check(&twice, &[], 1, 2);
    assert_eq!(fault, Err(Fault::SinkJoined { turn: 1, sink: 3 }));
    let stay = [1, 0, 3, 4000, 0, 3, 0, 1, 3, 1, 0, 3, 0, 0, 1, 3];
    assert_eq!(c().check(&stay, &[], 1, 2), Err(Fault::SinkJoined { turn: 1, sink: 3 }));
}

#[test]
fn wrong_cost() {
    for (turn, place) in [(0, 3), (1, 12), (2, 21), (3, 30)] {
        let right = B_LOG[place];
        for wrong in [right - 1, right + 1] {
            let fault = Fault::Cost { turn, logged: wrong.into(), path: right.into() };
            assert_eq!(b_fault(&[(place, wrong)]), fault);
        }
        let logged = u64::from(right) + (1 << 32);
        let high = Fault::Cost { turn, logged, path: right.into() };
        assert_eq!(b_fault(&[(place + 1, 1)]), high);
    }
}

#[test]
fn dearer_detour() {
    let first = b_fault(&[(3, 6000), (7, 3)]);
    assert_eq!(first, Fault::CheaperPath { turn: 0, logged: 6000, least: 4000 });
    // Iteration 1's path repeated at iteration 2's prices.
    let repeated = b_fault(&[(21, 8000), (25, 2)]);
    assert_eq!(repeated, Fault::CheaperPath { turn: 2, logged: 8000, least: 6000 });
}

#[test]
fn path_from_the_source_instead_of_the_tree() {
    let log = [&C_LOG[..9], &[1, 0, 2, 4000, 0, 3, 0, 1, 2]].concat();
    let fault = c().check(&log, &[], 1, 2);
    assert_eq!(fault, Err(Fault::CheaperPath { turn: 1, logged: 4000, least: 2000 }));
}

#[test]
fn farther_sink_first() {
    // From 0 sink 1 costs 2000, sink 3 behind wire 2 costs 4000.
    let edges = [(0, 1), (0, 2), (2, 3)];
    let job = tables(&[0, 1, 4, 1], &edges, &[(0, &[3, 1])], 1);
    let near = [1, 0, 1, 2000, 0, 2, 0, 1, 1, 0, 3, 4000, 0, 3, 0, 2, 3];
    let far = [1, 0, 3, 4000, 0, 3, 0, 2, 3, 1, 0, 1, 2000, 0, 2, 0, 1];
    assert_eq!(job.check(&near, &[], 1, 2), Ok(()));
    let fault = Fault::CheaperPath { turn: 0, logged: 4000, least: 2000 };
    assert_eq!(job.check(&far, &[], 1, 2), Err(fault));
}

#[test]
fn path_round_a_ring() {
    let edges = [(0, 1), (1, 2), (2, 0), (2, 3)];
    let job = tables(&[0, 4, 4, 1], &edges, &[(0, &[3])], 1);
    let ring = [1, 0, 3, 12000, 0, 7, 0, 1, 2, 0, 1, 2, 3];
    let fault = Fault::CheaperPath { turn: 0, logged: 12000, least: 6000 };
    assert_eq!(job.check(&ring, &[], 1, 1), Err(fault));
}

#[test]
fn equal_paths_both_pass() {
    let edges = [(0, 1), (0, 2), (1, 3), (2, 3)];
    let job = tables(&[0, 4, 4, 1], &edges, &[(0, &[3])], 1);
    for wire in [1, 2] {
        let log = [1, 0, 3, 4000, 0, 3, 0, wire, 3];
        assert_eq!(job.check(&log, &[], 1, 1), Ok(()));
    }
}

#[test]
fn histories_and_others_over_three_iterations() {
    let job = narrow(3);
    assert_eq!(job.check(&NARROW_LOG, &[9, 3, 1], 3, 6), Ok(()));
    let old = with(&NARROW_LOG, &[(39, 9500)]);
    let fault = Fault::Cost { turn: 4, logged: 9500, path: 12500 };
    assert_eq!(job.check(&old, &[9, 3, 1], 3, 6), Err(fault));
}

#[test]
fn histories_and_factors_by_the_tuning() {
    let mut job = narrow(3);
    job.tuning = job::Tuning { first: 10, up: 8, down: 3, step: 2 };
    // 3 x 20 x 110 and 5 x 20 x 126, each with the sink's 2000.
    let costs = [(21, 8600), (30, 8600), (39, 14600), (48, 14600)];
    let log = with(&NARROW_LOG, &costs);
    assert_eq!(job.check(&log, &[9, 3, 1], 3, 6), Ok(()));
    let fault = Fault::Cost { turn: 2, logged: 8000, path: 8600 };
    assert_eq!(job.check(&NARROW_LOG, &[9, 3, 1], 3, 6), Err(fault));
    assert!(narrow(3).check(&log, &[9, 3, 1], 3, 6).is_err());
}

#[test]
fn every_changed_word_is_found() {
    for (place, &right) in B_LOG.iter().enumerate() {
        for word in (0..8).chain([4096, 65_536, 1 << 31, u32::MAX]) {
            let changed = with(&B_LOG, &[(place, word)]);
            let found = b(2).check(&changed, &[], 2, 4).is_err();
            assert_eq!(found, word != right, "word {place} as {word}");
        }
    }
}

#[test]
fn faults_print_their_turn() {
    let fault = b_fault(&[(3, 4001)]);
    assert_eq!(fault.turn(), Some(0));
    assert_eq!(fault.to_string(), "turn 0: cost 4001 logged, the path costs 4000");
}
