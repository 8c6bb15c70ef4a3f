//! Nets of one source are one net, under the first one's number.

mod common;

use checker::{check, Fault};
use common::*;
use job::Job;

/// 01's two nets from one source of capacity 1.
fn two(limit: u32) -> Job {
    tables(&[0, 1, 1], &[(0, 1), (0, 2)], &[(0, &[1]), (0, &[2])], limit)
}

const TWO_LOG: [u32; 16] = [1, 0, 1, 2000, 0, 2, 0, 1, 1, 0, 2, 2000, 0, 2, 0, 2];

#[test]
fn one_net_joins_all_sinks() {
    assert_eq!(two(1).check(&TWO_LOG, &[], 1, 2), Ok(()));
    assert_eq!(
        two(2).check(&TWO_LOG, &[9, 1, 1], 1, 2),
        Err(Fault::LimitNotReached { iteration: 1, limit: 2 })
    );
    assert_eq!(two(1).check(&TWO_LOG, &[9, 1, 1], 1, 2), Err(Fault::NothingOver));
    // The log before nets were joined: the second net has a turn of its own.
    let apart = with(&TWO_LOG, &[(9, 1)]);
    assert_eq!(two(1).check(&apart, &[9, 1, 1], 1, 2), Err(Fault::NotSinkOfNet { turn: 1, sink: 2 }));
    assert_eq!(two(1).check(&TWO_LOG[..8], &[], 1, 1), Err(Fault::MissedSink { net: 0, sink: 2 }));
}

/// Wire 3 leads to sinks 4 to 6; sources 0 and 1 lead to it, and no edge to sink 2.
fn three(nets: &[(u16, &[u16])]) -> Job {
    tables(&[0, 0, 1, 4, 1, 1, 1], &[(0, 3), (1, 3), (3, 4), (3, 5), (3, 6)], nets, 1)
}

#[test]
fn a_repeated_sink_is_joined_once() {
    let job = three(&[(0, &[5, 4]), (0, &[4, 6]), (0, &[5])]);
    let log = [1, 0, 5, 4000, 0, 3, 0, 3, 5, 1, 0, 4, 2000, 0, 2, 3, 4, 1, 0, 6, 2000, 0, 2, 3, 6];
    assert_eq!(job.check(&log, &[], 1, 3), Ok(()));
    let again = [&log[..], &[1, 0, 5, 0, 0, 1, 5]].concat();
    assert_eq!(job.check(&again, &[], 1, 4), Err(Fault::SinkJoined { turn: 3, sink: 5 }));
    let full = check(&job.job(), &log[..24], &[8, 1, 2], 1, 2, 17);
    assert_eq!(full, Ok(()));
}

#[test]
fn seven_gives_the_joined_place() {
    let seven =
        |nets: &[(u16, &[u16])], net, place| check(&three(nets).job(), &[], &[7, net, place], 0, 0, 0);
    let nets: [(u16, &[u16]); 3] = [(0, &[4, 5]), (1, &[2]), (0, &[5, 2])];
    assert_eq!(seven(&nets, 0, 2), Ok(()));
    // The listed net and place, and the next net of its own.
    assert_eq!(seven(&nets, 2, 1), Err(Fault::NoSuchSink { net: 2, place: 1 }));
    let later = Fault::NotFirstUnreachable { net: 1, place: 0, first_net: 0, first_place: 2 };
    assert_eq!(seven(&nets, 1, 0), Err(later));
    assert_eq!(seven(&nets, 0, 3), Err(Fault::NoSuchSink { net: 0, place: 3 }));
}

#[test]
fn joined_nets_use_a_node_once() {
    // Nets 0 and 2 are one user of wire 3, net 1 another.
    let job = three(&[(0, &[4]), (1, &[5]), (0, &[6])]);
    let log = [
        1, 0, 4, 4000, 0, 3, 0, 3, 4, 1, 0, 6, 2000, 0, 2, 3, 6, //
        1, 1, 5, 4000, 0, 3, 1, 3, 5,
    ];
    assert_eq!(job.check(&log, &[9, 1, 1], 1, 3), Ok(()));
    let overfull = Fault::Overfull { node: 3, load: 2, capacity: 1 };
    assert_eq!(job.check(&log, &[], 1, 3), Err(overfull));
}
