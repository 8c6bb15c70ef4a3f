//! The use of wires over many jobs: what a log adds to the counts, their text, and every refusal.

mod common;
use common::*;
use job::Job;
use plain::{uses_add, uses_write, Answer, KINDS};

/// Job B's block with other capacities: sources 0 and 1, wires 2 and 3 of kinds 4 and 5, sinks 4 and 5.
fn block() -> Job {
    let mut t = tables(&text(B));
    t.capacity = vec![1, 2, 3, 4, 5, 6];
    t
}

/// A record: iteration, net and path.
fn record(iteration: u32, net: u32, path: &[u32]) -> Vec<u32> {
    [&[iteration, net, path[path.len() - 1], 8, 9, path.len() as u32], path].concat()
}

/// Counts of so many logs, with one entry more than there are kinds.
#[derive(Clone, Debug, PartialEq)]
struct Counts {
    uses: Vec<u64>,
    logs: u64,
}

impl Counts {
    /// No uses but these, each of a kind.
    fn of(uses: &[(usize, u64)], logs: u64) -> Counts {
        let mut list = vec![0; KINDS + 1];
        uses.iter().for_each(|(kind, uses)| list[*kind] = *uses);
        list[KINDS] = MARK as u64;
        Counts { uses: list, logs }
    }

    /// The refusal of a log, if there is one; a refused log adds nothing.
    fn add(&mut self, t: &Job, log: &[u32]) -> Vec<u64> {
        let before = self.clone();
        let answer =
            uses_add(&t.kind, &t.capacity, &t.first_edge, &t.edge_target, &mut self.uses, self.logs, log);
        if answer.refusal.is_empty() {
            self.logs += 1;
            assert_eq!(answer.numbers, [self.logs]);
        } else {
            assert_eq!((&answer.numbers, &*self), (&vec![before.logs], &before));
        }
        assert_eq!(self.uses[KINDS], MARK as u64);
        answer.refusal
    }

    fn write(&self, t: &Job, buffer: &mut [u8]) -> Answer {
        uses_write(&t.kind, &t.capacity, &t.first_edge, &t.edge_target, &self.uses, self.logs, buffer)
    }

    /// The same refusal by both calls, of a log that is sound.
    fn refused(&self, t: &Job) -> Vec<u64> {
        let refusal = self.clone().add(t, &record(1, 0, &[0, 2, 4]));
        let mut buffer = [9; 9];
        let answer = self.write(t, &mut buffer);
        assert_eq!((&answer.refusal, answer.numbers, buffer), (&refusal, vec![0], [9; 9]));
        refusal
    }

    /// The text: these lines, and 0 uses of capacity 0 for all other kinds.
    fn expect(&self, t: &Job, lines: &[(usize, &str)]) {
        let line = |kind: usize| lines.iter().find(|line| line.0 == kind).map_or("0,0", |line| line.1);
        let text: String = (0..KINDS).map(|kind| format!("U,{kind},{}\n", line(kind))).collect();
        assert_eq!(text_of(|buffer| self.write(t, buffer)), text);
    }
}

/// The counts of logs that are all accepted.
fn after(t: &Job, logs: &[&[u32]]) -> Counts {
    let mut counts = Counts::of(&[], 0);
    for log in logs {
        assert_eq!(counts.add(t, log), [0; 0]);
    }
    counts
}

const NONE: [u64; 0] = [];

#[test]
fn job_b() {
    let t = tables(&text(B));
    let log = routed(&t, 36).1;
    let counts = after(&t, &[&log]);
    // The trees are 0, 3, 4 and 1, 2, 5.
    assert_eq!(counts, Counts::of(&[(0, 2), (1, 2), (4, 1), (5, 1)], 1));
    counts.expect(&t, &[(0, "2,2"), (1, "2,2"), (4, "1,1"), (5, "1,1")]);
    let counts = after(&t, &[&log, &log, &log]);
    counts.expect(&t, &[(0, "6,6"), (1, "6,6"), (4, "3,3"), (5, "3,3")]);
}

#[test]
fn before_any_log() {
    // The capacity is that of 0 logs.
    Counts::of(&[], 0).expect(&block(), &[]);
}

#[test]
fn capacity_is_the_kinds_times_the_logs() {
    let t = block();
    let (one, other) = (record(1, 0, &[0, 2, 4]), record(1, 0, &[0, 3, 4]));
    after(&t, &[&one]).expect(&t, &[(0, "1,3"), (1, "1,11"), (4, "1,3"), (5, "0,4")]);
    after(&t, &[&one, &one, &other]).expect(&t, &[(0, "3,9"), (1, "3,33"), (4, "2,9"), (5, "1,12")]);
}

#[test]
fn a_node_counts_once_for_a_net() {
    let t = block();
    // Both paths have wire 2; then a path that passes it twice; then one wire of two nets.
    let fork = [record(1, 0, &[0, 2, 4]), record(1, 0, &[2, 5])].concat();
    assert_eq!(after(&t, &[&fork]), Counts::of(&[(0, 1), (1, 2), (4, 1)], 1));
    let twice = record(1, 0, &[0, 2, 3, 2, 4]);
    assert_eq!(after(&t, &[&twice]), Counts::of(&[(0, 1), (1, 1), (4, 1), (5, 1)], 1));
    let two = [record(1, 0, &[0, 2, 4]), record(1, 1, &[1, 2, 5])].concat();
    assert_eq!(after(&t, &[&two]), Counts::of(&[(0, 2), (1, 2), (4, 2)], 1));
}

#[test]
fn final_trees_are_the_latest() {
    let t = block();
    // Net 511 has its tree of iteration 1, net 0 that of iteration 3, in two records with another net's between.
    let log = [
        record(1, 511, &[1, 2, 5]),
        record(1, 0, &[0, 2, 4]),
        record(3, 0, &[0, 3]),
        record(3, 7, &[1, 3]),
        record(3, 0, &[3, 4]),
    ];
    // 1, 2, 5 and 0, 3, 4 and 1, 3.
    assert_eq!(after(&t, &[&log.concat()]), Counts::of(&[(0, 3), (1, 2), (4, 1), (5, 2)], 1));
}

#[test]
fn the_order_of_logs_does_not_matter() {
    let t = block();
    let logs = [record(1, 0, &[0, 2, 4]), record(9, 3, &[1, 2]), record(1, 1, &[1, 2, 5, 3])];
    let [a, b, c] = [&logs[0][..], &logs[1], &logs[2]];
    let expected = Counts::of(&[(0, 3), (1, 2), (4, 3), (5, 1)], 3);
    for order in [[a, b, c], [a, c, b], [b, a, c], [b, c, a], [c, a, b], [c, b, a]] {
        assert_eq!(after(&t, &order), expected);
    }
}

#[test]
fn tables_first() {
    let kinds = [vec![], vec![0, 0, 4, 54, 1, 1]].map(|kind| (Job { kind, ..block() }, 1));
    let capacity = (Job { capacity: vec![1, 1, 1, 1, 1, 0], ..block() }, 2);
    let first_edge = (Job { first_edge: vec![0, 7, 3, 5, 6, 6, 6], ..block() }, 3);
    let targets = [6, 0].map(|first| (Job { edge_target: vec![first, 3, 2, 4, 5, 4], ..block() }, 4));
    for (t, table) in kinds.into_iter().chain([capacity, first_edge]).chain(targets) {
        for logs in [0, 1, 65_535, 65_536, u64::MAX] {
            assert_eq!(Counts::of(&[(0, u64::MAX)], logs).refused(&t), [5, table]);
            assert_eq!(Counts::of(&[], logs).add(&t, &[]), [5, table]);
        }
    }
    // Nets are none of the block's.
    let mut t = block();
    t.source.clear();
    t.first_sink.clear();
    assert_eq!(Counts::of(&[], 0).add(&t, &record(1, 0, &[0, 2])), NONE);
}

#[test]
fn counts_beyond_bounds() {
    let t = block();
    for logs in [65_536, 65_537, u64::MAX] {
        assert_eq!(Counts::of(&[(0, u64::MAX)], logs).refused(&t), [13, 54]);
        assert_eq!(Counts::of(&[], logs).add(&t, &[]), [13, 54]);
    }
    // 512 nets, 3 logs, 2 nodes of kinds 0 and 1, 1 of kinds 4 and 5, none of any other.
    let most = [(0, 3_072), (1, 3_072), (4, 1_536), (5, 1_536)];
    Counts::of(&most, 3).expect(&t, &[(0, "3072,9"), (1, "3072,33"), (4, "1536,9"), (5, "1536,12")]);
    for kind in 0..KINDS {
        let mut counts = Counts::of(&most, 3);
        counts.uses[kind] += 1;
        assert_eq!(counts.refused(&t), [13, kind as u64]);
        counts.uses[53] = u64::MAX;
        assert_eq!(counts.refused(&t), [13, kind as u64]);
        assert_eq!(counts.add(&t, &[]), [13, kind as u64]);
    }
    assert_eq!(Counts::of(&[(5, 1)], 0).refused(&t), [13, 5]);
    // The largest numbers: 512 x 65,535 x 2, and one more.
    Counts::of(&[(1, 67_107_840)], 65_535)
        .expect(&t, &[(0, "0,196605"), (1, "67107840,720885"), (4, "0,196605"), (5, "0,262140")]);
    assert_eq!(Counts::of(&[(1, 67_107_841)], 65_535).refused(&t), [13, 1]);
}

#[test]
fn counts_at_their_bounds_take_a_log() {
    let t = block();
    let mut counts = Counts::of(&[(0, 1_024), (4, 512)], 1);
    assert_eq!(counts.add(&t, &record(1, 0, &[0, 2, 4])), NONE);
    assert_eq!(counts, Counts::of(&[(0, 1_025), (1, 1), (4, 513)], 2));
}

#[test]
fn every_net_on_every_node() {
    let t = block();
    let log: Vec<u32> = (0..512).flat_map(|net| record(1, net, &[0, 1, 2, 3, 4, 5])).collect();
    let counts = after(&t, &[&log]);
    assert_eq!(counts, Counts::of(&[(0, 1_024), (1, 1_024), (4, 512), (5, 512)], 1));
    assert_eq!(after(&t, &[&log, &log]).uses[4], 1_024);
}

#[test]
fn unsound_logs() {
    let t = block();
    let mut counts = Counts::of(&[(0, 4)], 2);
    assert_eq!(counts.add(&t, &[]), [10, 0]);
    let good = record(1, 511, &[0, 2, 5]);
    // Iteration, net, sink, length, and nodes that a block of 6 lacks.
    let bad = [(0, 0), (0, 101), (1, 512), (2, 4), (5, 1), (5, 2), (5, 4), (6, 6), (6, 4_095), (7, 4_096)];
    for (place, word) in bad {
        let mut log = [&good[..], &good].concat();
        log[9 + place] = word;
        assert_eq!(counts.add(&t, &log), [10, 9]);
        log.rotate_left(9);
        assert_eq!(counts.add(&t, &log), [10, 0]);
    }
    // The last node is the sink, and lacking.
    assert_eq!(counts.add(&t, &record(1, 0, &[0, 6])), [10, 0]);
    // The iteration falls; a record is cut short.
    assert_eq!(counts.add(&t, &[record(3, 0, &[0, 2]), record(2, 0, &[0, 2])].concat()), [10, 8]);
    for length in 10..18 {
        assert_eq!(counts.add(&t, &[&good[..], &good].concat()[..length]), [10, 9]);
    }
    assert_eq!(counts, Counts::of(&[(0, 4)], 2));
    assert_eq!(counts.add(&t, &good), NONE);
    // A path of 4,096 nodes is sound in a small block too, one of 4,097 is not.
    assert_eq!(counts.add(&t, &record(1, 0, &[5; 4_096])), NONE);
    assert_eq!(counts.add(&t, &record(1, 0, &[5; 4_097])), [10, 0]);
}

#[test]
fn too_many_logs() {
    let t = block();
    let good = record(1, 0, &[0, 2, 4]);
    let mut counts = Counts::of(&[(0, 9)], 65_534);
    assert_eq!(counts.add(&t, &good), NONE);
    assert_eq!(counts, Counts::of(&[(0, 10), (1, 1), (4, 1)], 65_535));
    assert_eq!(counts.add(&t, &good), [16, 65_535]);
    // 10 and 13 come before it.
    assert_eq!(counts.add(&t, &good[..8]), [10, 0]);
    counts.uses[3] = 1;
    assert_eq!(counts.add(&t, &good), [13, 3]);
}

#[test]
fn all_kinds_have_a_line() {
    // A block of 54 nodes, each of its own kind, and a net over all of them.
    let kind: Vec<u8> = (0..54).collect();
    let t = Job::new(kind.clone(), kind.iter().map(|k| k + 1).collect(), &vec![vec![]; 54], &[(0, [1])], 1);
    let log = record(1, 0, &(0..54).collect::<Vec<u32>>());
    let mut counts = Counts::of(&[(53, 4_608)], 9);
    assert_eq!(counts.add(&t, &log), NONE);
    let lines = text_of(|buffer| counts.write(&t, buffer));
    assert!(lines.starts_with("U,0,1,10\nU,1,1,20\n") && lines.ends_with("U,52,1,530\nU,53,4609,540\n"));
    assert_eq!(lines.lines().count(), 54);
}

#[test]
fn short_counts() {
    let t = block();
    let (mut uses, mut buffer) = ([7; KINDS - 1], [9; 4_000]);
    let nothing = Answer { refusal: vec![], numbers: vec![] };
    let log = record(1, 0, &[0, 2, 4]);
    let [kind, capacity] = [&t.kind, &t.capacity];
    assert_eq!(uses_add(kind, capacity, &t.first_edge, &t.edge_target, &mut uses, 1, &log), nothing);
    assert_eq!(uses_write(kind, capacity, &t.first_edge, &t.edge_target, &uses, 1, &mut buffer), nothing);
    assert_eq!((uses, buffer), ([7; KINDS - 1], [9; 4_000]));
}
