//! The largest numbers and tables.

mod common;
use common::*;
use job::{Job, Tuning, PLAIN_RULE, PLAIN_UNTIL};
use plain::search;

#[test]
fn the_largest_distance() {
    let nodes = 4096;
    // A chain downwards, the worst order for rounds that go upwards.
    let first_edge: Vec<u32> = (0..=nodes).map(|v: u32| v.saturating_sub(1)).collect();
    let edge_target: Vec<u16> = (0..nodes as u16 - 1).collect();
    let mut marks = vec![0; 4096];
    marks[4095] = 1;
    let mut work = vec![9; 8 * 4096 + 1];
    let answer = search(
        &[53; 4096],
        &[1; 4096],
        &first_edge,
        &edge_target,
        65535,
        &mut work,
        &[101179; 4096],
        &[511; 4096],
        &marks,
    );
    assert!(answer.refusal.is_empty());
    let price = 101179 * 1000 * (100 + 65535 * 511);
    assert!((0..4096).all(|v| work[v] == (4095 - v as u64) * price));
    assert_eq!(work[0], 4095 * 3_388_331_423_815_000);
    assert!(work[4096..8 * 4096].iter().all(|&w| w == 0));
    assert_eq!(work[8 * 4096], 9);
}

/// A job with so many nodes, edges, nets and sinks (the last net has the most sinks); sound but for the counts.
fn sized(nodes: usize, edges: usize, nets: usize, sinks: usize) -> Job {
    let row = edges.div_ceil(nodes);
    let first_edge = (0..=nodes).map(|v| (v * row).min(edges) as u32).collect();
    let target = |e: usize| {
        let (v, place) = (e / row, e % row);
        (if place < v { place } else { place + 1 }) as u16
    };
    let mut first_sink: Vec<u32> = (0..nets as u32).collect();
    first_sink.push(sinks as u32);
    let sink = |s: usize| (if s < nets { 1 } else { s - nets + 2 }) as u16;
    let mut kind = vec![1; nodes];
    kind[0] = 0;
    Job {
        kind,
        capacity: vec![255; nodes],
        first_edge,
        edge_target: (0..edges).map(target).collect(),
        source: vec![0; nets],
        first_sink,
        sink: (0..sinks).map(sink).collect(),
        delay: vec![],
        criticality: vec![],
        limit: 1,
        tuning: Tuning::PLAIN,
        rule: PLAIN_RULE,
        until: PLAIN_UNTIL,
        timed: 0,
    }
}

fn refused(t: &Job) -> Vec<u64> {
    let mut work = vec![9; 8 * 4096 - 8];
    let answer = route_with(t, &mut work, &mut []);
    assert!(work.iter().all(|&w| w == 9));
    answer.refusal
}

#[test]
fn the_largest_tables() {
    assert_eq!(refused(&sized(4096, 32768, 512, 4096)), [6, 32768]);
    assert_eq!(refused(&sized(4097, 32768, 512, 4096)), [5, 1]);
    assert_eq!(refused(&sized(4096, 32769, 512, 4096)), [5, 4]);
    assert_eq!(refused(&sized(4096, 32768, 513, 4096)), [5, 5]);
    assert_eq!(refused(&sized(4096, 32768, 512, 4097)), [5, 7]);
}

#[test]
fn history_and_factor_take_part() {
    // Two nets share node 2 or pass by the costly node 3: the third iteration's costs show both.
    let lines = "F,6,7,2,100 N,0,0,1 N,1,0,1 N,2,4,1 N,3,15,1 N,4,1,1 N,5,1,1 \
        E,0,2 E,0,3 E,1,2 E,2,4 E,2,5 E,3,4 E,3,5 S,0,0 T,0,4 S,1,1 T,1,5";
    let (answer, log) = routed(&tables(&text(lines)), 1000);
    assert!(answer.refusal.is_empty());
    // Net 0 in iteration 2: history 2, factor 50, one other: 2 x 20 x 150, then the sink's 2000.
    assert_eq!(log[18..27], [2, 0, 4, 8000, 0, 3, 0, 2, 4]);
    // Iteration 3: history 3, factor 75: 3 x 20 x 175, then the sink's 2000.
    assert_eq!(log[36..45], [3, 0, 4, 12500, 0, 3, 0, 2, 4]);
    // Iteration 4: history 4, factor 112: 4 x 20 x 212 = 16960; node 3 costs 24000.
    assert_eq!(log[54..63], [4, 0, 4, 18960, 0, 3, 0, 2, 4]);
    // Iteration 5: history 5, factor 168: 5 x 20 x 268 = 26800; node 3 is cheaper.
    assert_eq!(log[72..81], [5, 0, 4, 26000, 0, 3, 0, 3, 4]);
    assert_eq!(answer.numbers, [5, 10, 90]);
}
