//! Timed jobs: what demand 3 says is about the sink whose turn it is.

mod common;

use checker::prices::weighed;
use checker::{check, check_resumed, Fault};
use common::*;
use job::Job;

/// One net from 0 to the sinks 5, 3 and 4, of criticality 2, 9 and 9. Wire 1 is dear in delay.
fn three(nets: &[(u16, &[u16])], criticality: &[u8]) -> Job {
    let edges = [(0, 1), (0, 2), (1, 3), (1, 4), (1, 5), (2, 1), (2, 3), (2, 5), (4, 5)];
    let job = tables(&[0, 4, 5, 1, 3, 1], &edges, nets, 2);
    Job { capacity: vec![1, 2, 2, 2, 2, 2], ..job.timed(&[0, 900, 10, 0, 5, 1000], criticality) }
}

fn sample() -> Job {
    three(&[(0, &[5, 3, 4])], &[2, 9, 9])
}

/// By 9: wire 2 is 9000 + 4000, sink 3 2000; wire 1 810000 + 2000, sink 4 4500 + 1900. By 2: sink 5 is 200000 + 8 x 2000.
const LOG: [u32; 26] = [
    1, 0, 3, 15000, 0, 3, 0, 2, 3, //
    1, 0, 4, 818400, 0, 3, 0, 1, 4, //
    1, 0, 5, 216000, 0, 2, 1, 5,
];

fn fault(log: &[u32], turns: u64) -> Fault {
    sample().check(log, &[], 1, turns).unwrap_err()
}

#[test]
fn weighed_prices() {
    assert_eq!(weighed(2000, 400, 3), 3 * 400 * 100 + 7 * 2000);
    assert_eq!(weighed(2000, 1000, 0), 20_000);
    assert_eq!(weighed(1900, 1000, 9), 901_900);
}

#[test]
fn a_timed_log_passes() {
    assert_eq!(sample().check(&LOG, &[], 1, 3), Ok(()));
    assert_eq!(check(&sample().job(), &LOG, &[8, 1, 2], 1, 2, 18), Ok(()));
    // Either path to sink 4 costs as much: which was taken is not asked here.
    assert_eq!(sample().check(&with(&LOG, &[(15, 2)]), &[], 1, 3), Ok(()));
    // It isn't the log of the same job untimed, nor is that one this job's.
    let untimed = Job { timed: 0, ..sample() };
    let cost = Fault::Cost { turn: 0, logged: 15000, path: 6000 };
    assert_eq!(untimed.check(&LOG, &[], 1, 3), Err(cost));
    let log = [1, 0, 4, 3900, 0, 3, 0, 1, 4, 1, 0, 5, 2000, 0, 2, 1, 5, 1, 0, 3, 2000, 0, 2, 1, 3];
    assert_eq!(untimed.check(&log, &[], 1, 3), Ok(()));
    assert_eq!(fault(&log, 3), Fault::OtherTurn { turn: 0, sink: 4, due: 3 });
}

#[test]
fn another_sink_s_turn() {
    // 4 before 3, which is listed first; 5 before both; 5 before 4.
    let second = with(&LOG[9..18], &[]);
    assert_eq!(fault(&second, 1), Fault::OtherTurn { turn: 0, sink: 4, due: 3 });
    let least = [1, 0, 5, 254000, 0, 3, 0, 2, 5];
    assert_eq!(fault(&least, 1), Fault::OtherTurn { turn: 0, sink: 5, due: 3 });
    let early = [&LOG[..9], &[1, 0, 5, 216000, 0, 2, 2, 5]].concat();
    assert_eq!(fault(&early, 2), Fault::OtherTurn { turn: 1, sink: 5, due: 4 });
    assert_eq!(fault(&early, 2).to_string(), "turn 1: sink 5 is joined, it is the turn of 4");
    // As they are listed.
    let other = three(&[(0, &[5, 4, 3])], &[2, 9, 9]);
    assert_eq!(other.check(&LOG, &[], 1, 3), Err(Fault::OtherTurn { turn: 0, sink: 3, due: 4 }));
    // By falling criticality.
    let other = three(&[(0, &[5, 3, 4])], &[2, 8, 9]);
    assert_eq!(other.check(&LOG, &[], 1, 3), Err(Fault::OtherTurn { turn: 0, sink: 3, due: 4 }));
}

#[test]
fn the_cost_is_by_that_sink_s_criticality() {
    // Of the last turn by 9: 900000 + 2000. By none, and by congestion alone.
    for cost in [902_000, 100_000, 20_000, 2_000, 215_999, 216_001] {
        let cost_fault = Fault::Cost { turn: 2, logged: cost.into(), path: 216_000 };
        assert_eq!(fault(&with(&LOG, &[(21, cost)]), 3), cost_fault);
    }
}

#[test]
fn no_path_to_that_sink_costs_less() {
    // Over wire 1 to sink 3, which congestion alone would take: 812000 + 2000.
    let dear = with(&LOG, &[(3, 814000), (7, 1)]);
    assert_eq!(fault(&dear, 3), Fault::CheaperPath { turn: 0, logged: 814000, least: 15000 });
    // From the source in place of the tree: wire 1 by 2 is 180000 + 16000.
    let log = [&LOG[..18], &[1, 0, 5, 412000, 0, 3, 0, 1, 5]].concat();
    assert_eq!(fault(&log, 3), Fault::CheaperPath { turn: 2, logged: 412000, least: 216000 });
}

/// Sink 1 leads to sink 2 and is cheaper to join, but 2 is the more critical one.
#[test]
fn a_path_may_pass_another_sink() {
    let chain = tables(&[0, 1, 3], &[(0, 1), (1, 2)], &[(0, &[1, 2])], 1);
    let timed = chain.timed(&[0, 10, 20], &[0, 5]);
    // 5000 + 10000, and 10000 + 9500.
    let log = [1, 0, 2, 34500, 0, 3, 0, 1, 2];
    assert_eq!(timed.check(&log, &[], 1, 1), Ok(()));
    // Sink 1 has no turn any more.
    let more = [&log[..], &[1, 0, 1, 0, 0, 1, 1]].concat();
    assert_eq!(timed.check(&more, &[], 1, 2), Err(Fault::SinkJoined { turn: 1, sink: 1 }));
    // An untimed path may pass it only at its own cost, which is more than the nearest sink's.
    let untimed = Job { timed: 0, ..timed };
    let cheaper = Fault::CheaperPath { turn: 0, logged: 3900, least: 2000 };
    assert_eq!(untimed.check(&with(&log, &[(3, 3900)]), &[], 1, 1), Err(cheaper));
}

#[test]
fn the_final_trees_miss_no_sink() {
    assert_eq!(fault(&LOG[..18], 2), Fault::MissedSink { net: 0, sink: 5 });
    assert_eq!(fault(&[], 0), Fault::MissedSink { net: 0, sink: 5 });
}

#[test]
fn the_first_listing_s_criticality_counts() {
    // Sinks 5, 3 and 4 of three nets; 3 and 5 are listed again with others.
    let nets: [(u16, &[u16]); 3] = [(0, &[5, 3]), (0, &[3, 4]), (0, &[5])];
    let of = |criticality: &[u8]| three(&nets, criticality);
    assert_eq!(of(&[2, 9, 0, 9, 9]).check(&LOG, &[], 1, 3), Ok(()));
    let later = Fault::OtherTurn { turn: 0, sink: 3, due: 4 };
    assert_eq!(of(&[2, 0, 9, 9, 2]).check(&LOG, &[], 1, 3), Err(later));
    let price = Fault::Cost { turn: 2, logged: 216000, path: 118000 };
    assert_eq!(of(&[1, 9, 9, 9, 2]).check(&LOG, &[], 1, 3), Err(price));
}

/// A turn that was lent need not be cheapest, but joins the sink whose turn it is at that sink's prices.
#[test]
fn lent_turns_of_a_timed_job() {
    let lent = |log: &[u32]| check_resumed(&sample().job(), 9, log, &[], 1, 3, log.len() as u64);
    // Sink 3 over wire 1; sink 4 then costs 6400 from there.
    let dear = with(&LOG, &[(3, 814000), (7, 1)]);
    let log = [&dear[..9], &[1, 0, 4, 6400, 0, 2, 1, 4], &LOG[18..]].concat();
    assert_eq!(lent(&log), Ok(()));
    assert_eq!(lent(&with(&log, &[(3, 4000)])), Err(Fault::Cost { turn: 0, logged: 4000, path: 814000 }));
    let other = [&LOG[9..18], &LOG[..9], &LOG[18..]].concat();
    assert_eq!(lent(&other), Err(Fault::OtherTurn { turn: 0, sink: 4, due: 3 }));
}

/// Prices for a sink are weighed from the histories and the other trees as they are.
#[test]
fn congestion_counts_by_its_tenths() {
    let job = b(2).timed(&[0, 0, 0, 100, 0, 0], &[9, 0]);
    let log = with(&B_LOG, &[(12, 40000), (21, 8000), (25, 2), (30, 80000)]);
    assert_eq!(job.check(&log, &[9, 2, 1], 2, 4), Ok(()));
    let cost = Fault::Cost { turn: 3, logged: 60000, path: 80000 };
    assert_eq!(job.check(&with(&log, &[(30, 60000)]), &[9, 2, 1], 2, 4), Err(cost));
    // Wire 3 is 90000 + 4000 to net 0.
    let dear = with(&log, &[(21, 96000), (25, 3), (30, 60000)]);
    let cheaper = Fault::CheaperPath { turn: 2, logged: 96000, least: 8000 };
    assert_eq!(job.check(&dear, &[], 2, 4), Err(cheaper));
}

#[test]
fn every_changed_word_is_found() {
    for (place, &right) in LOG.iter().enumerate() {
        for word in (0..8).chain([4096, 65_536, 1 << 31, u32::MAX]) {
            let changed = with(&LOG, &[(place, word)]);
            // From 2 wire 1 is as near as from 0, from 2 and 4 sink 5 as near as from 1.
            let same = word == right || [(15, 2), (24, 2), (24, 4)].contains(&(place, word));
            assert_eq!(sample().check(&changed, &[], 1, 3).is_err(), !same, "word {place} as {word}");
        }
    }
}
