//! The nodes that an aimed search expands, counted by hand on small blocks. Every aimed call here ends as the plain one does.

mod common;
use common::*;
use job::Job;
use plain::{aimed_path, cheapest_path, resume_aimed, route_aimed, Answer, Weighting};

/// Goes on aimed from a log, or begins, in a slice of so many words: what it answers but for the count, and the count.
fn run_aimed(t: &Job, lent: Option<&[u32]>, words: usize, entries: usize) -> (Answer, u64) {
    let mut plain_log = lent.unwrap_or(&[]).to_vec();
    plain_log.resize(words.max(plain_log.len()), MARK);
    let mut log = plain_log.clone();
    let (mut work, mut plain_work) = (vec![7; entries], vec![7; entries]);
    macro_rules! lend {
        ($call:ident, $work:ident, $log:ident $(, $used:expr)?) => {
            $call(
                &t.kind, &t.capacity, &t.first_edge, &t.edge_target, &t.source, &t.first_sink, &t.sink, &t.delay,
                &t.criticality, &t.terms(), $($used,)? &mut $work, &mut $log,
            )
        };
    }
    let (mut answer, plain) = match lent {
        None => (lend!(route_aimed, work, log), route_with(t, &mut plain_work, &mut plain_log)),
        Some(lent) => {
            let used = lent.len() as u64;
            (lend!(resume_aimed, work, log, used), resume_with(t, used, &mut plain_work, &mut plain_log))
        }
    };
    assert_eq!(answer.numbers.len(), 4);
    let count = answer.numbers.pop().unwrap();
    assert_eq!((&answer, &log, &work), (&plain, &plain_log, &plain_work));
    (answer, count)
}

/// The refusal of an aimed run in so many words of log, and the nodes that it expands.
fn aimed_in(t: &Job, words: usize) -> (Vec<u64>, u64) {
    let (answer, count) = run_aimed(t, None, words, 8 * t.kind.len());
    (answer.refusal, count)
}

/// How many nodes the turns of a job expand, one after the other: from logs with room for one turn more each time.
fn counts(t: &Job) -> Vec<u64> {
    let (answer, log) = routed(t, 400);
    let mut ends = vec![0];
    while ends[ends.len() - 1] < answer.numbers[2] as usize {
        let last = ends[ends.len() - 1];
        ends.push(last + 6 + log[last + 5] as usize);
    }
    let totals: Vec<u64> = ends.iter().map(|&words| aimed_in(t, words).1).collect();
    assert_eq!(aimed_in(t, 400), (answer.refusal, totals[totals.len() - 1]));
    totals.windows(2).map(|pair| pair[1] - pair[0]).collect()
}

fn counts_of(lines: &str) -> Vec<u64> {
    counts(&tables(&text(lines)))
}

/// In each turn source, wire and sink: the other wire is too dear, the other sink leads nowhere, the other source isn't reached.
#[test]
fn job_b() {
    assert_eq!(counts_of(B), [3, 3, 3, 3]);
    assert_eq!(counts_of(&b_with("V,2").replace('\n', " ")), [3, 3, 3, 3]);
}

/// Two wires as dear as each other.
#[test]
fn ties_count() {
    let diamond = "F,4,4,1,1 N,0,0,1 N,1,4,1 N,2,4,1 N,3,1,1 E,0,1 E,0,2 E,1,3 E,2,3 S,0,0 T,0,3";
    assert_eq!(counts_of(diamond), [4]);
    assert_eq!(counts_of(&diamond.replace("N,2,4,1", "N,2,5,1")), [3]);
}

/// Job C: in the first turn the other sink, as far as the joined one, counts too. In the second the source, which is in the tree, is too
/// far from the sink that is left, and the joined sink leads nowhere.
#[test]
fn equals_of_the_joined_sink_count_and_tree_nodes_may_not() {
    let c = "F,4,3,1,1 N,0,0,1 N,1,4,1 N,2,1,1 N,3,1,1 E,0,1 E,1,2 E,1,3 S,0,0 T,0,3 T,0,2";
    assert_eq!(counts_of(c), [4, 2]);
    // An input pin is nearer than the sink, which then is beyond the joined one.
    assert_eq!(counts_of(&c.replace("N,2,1,1", "N,2,3,1")), [3, 2]);
    // A joined sink with an edge to the one that is left counts again: it is in the tree, and as near as the wire.
    assert_eq!(counts_of(&c.replace("F,4,3,1,1", "F,4,4,1,1").replace("E,1,3", "E,1,3 E,3,2")), [4, 3]);
    // The same as two nets of one source, which are joined.
    let two = c.replace("F,4,3,1,1", "F,4,3,2,1").replace("S,0,0 T,0,3 T,0,2", "S,0,0 T,0,3 S,1,0 T,1,2");
    assert_eq!(counts_of(&two), [4, 2]);
}

/// Node 3 leads nowhere, node 4 isn't reached, nodes 5 and 6 are neither.
#[test]
fn nodes_without_a_path_do_not_count() {
    assert_eq!(
        counts_of(
            "F,7,5,1,1 N,0,0,1 N,1,4,1 N,2,1,1 N,3,4,1 N,4,4,1 N,5,4,1 N,6,4,1 \
            E,0,1 E,0,3 E,1,2 E,4,1 E,5,6 S,0,0 T,0,2"
        ),
        [3]
    );
}

/// Wire 1 with the sink costs 4,000, the pin with it 3,900: were the sink's cost left out of the estimate, or a node's own counted, it would
/// be another count.
#[test]
fn the_sinks_cost_counts_and_the_nodes_own_does_not() {
    assert_eq!(
        counts_of("F,4,4,1,1 N,0,0,1 N,1,4,1 N,2,1,1 N,3,3,1 E,0,1 E,0,3 E,1,2 E,3,2 S,0,0 T,0,2"),
        [3]
    );
}

/// Two nets over wire 2. In iteration 2 it costs net 0 6,000, and so does wire 5, of three tiles: both ways count.
#[test]
fn estimates_take_base_costs_alone() {
    let crowded = "F,6,6,2,2 N,0,0,1 N,1,0,1 N,2,4,1 N,3,1,1 N,4,1,1 N,5,6,1 \
        E,0,2 E,0,5 E,1,2 E,2,3 E,2,4 E,5,3 S,0,0 T,0,3 S,1,1 T,1,4";
    assert_eq!(counts_of(crowded), [3, 3, 4, 3]);
    // Wire 6 leads to wire 2: its 2,000 and by base costs 4,000 more are at most the 8,000 of the sink, though a path over it costs 10,000.
    let before = crowded.replace("F,6,6,2,2", "F,7,8,2,2").replace("N,5,6,1", "N,5,6,1 N,6,4,1");
    let before = before.replace("E,0,5", "E,0,5 E,0,6").replace("E,5,3", "E,5,3 E,6,2");
    assert_eq!(counts_of(&before), [3, 3, 5, 3]);
}

/// Net 1 keeps its tree in iteration 2 and makes no turn.
#[test]
fn nets_that_are_not_due_expand_nothing() {
    let three = "F,9,8,3,2 V,2 N,0,0,1 N,1,0,1 N,2,4,1 N,3,5,1 N,4,1,1 N,5,1,1 N,6,0,1 N,7,4,1 N,8,1,1 \
        E,0,2 E,0,3 E,1,2 E,2,4 E,2,5 E,3,4 E,6,7 E,7,8 S,0,0 T,0,4 S,1,6 T,1,8 S,2,1 T,2,5";
    assert_eq!(counts_of(three), [3, 3, 3, 3, 3]);
    assert_eq!(counts_of(&three.replace("V,2", "V,1")), [3, 3, 3, 3, 3, 3]);
}

/// A turn whose record doesn't fit isn't counted.
#[test]
fn a_turn_that_does_not_fit_is_not_counted() {
    let b = tables(&text(B));
    for (words, refusal, count) in [
        (0, vec![8, 1, 0], 0),
        (8, vec![8, 1, 0], 0),
        (9, vec![8, 1, 1], 3),
        (17, vec![8, 1, 1], 3),
        (18, vec![8, 2, 2], 6),
        (35, vec![8, 2, 3], 9),
        (36, vec![], 12),
    ] {
        assert_eq!(aimed_in(&b, words), (refusal, count), "{words} words");
    }
    assert_eq!(aimed_in(&Job { limit: 1, ..b }, 99), (vec![9, 1, 1], 6));
}

#[test]
fn other_refusals_expand_nothing() {
    let b = tables(&text(B));
    let refused = |t: &Job, entries: usize| {
        let (answer, count) = run_aimed(t, None, 99, entries);
        assert_eq!((answer.numbers, count), (vec![0; 3], 0));
        answer.refusal
    };
    assert_eq!(refused(&Job { limit: 0, ..b.clone() }, 48), [5, 8]);
    let timed = Job { timed: 1, delay: vec![0; 6], criticality: vec![0; 2], ..b.clone() };
    assert_eq!(refused(&Job { limit: 41, ..timed }, 48), [15, 6, 41]);
    assert_eq!(refused(&b, 47), [6, 48]);
    let cut = tables(&text(&B.replace("F,6,6,2,2", "F,6,5,2,2").replace("E,2,5 ", "")));
    assert_eq!(refused(&cut, 48), [7, 1, 0]);
}

/// A resume counts the turns that it appends.
#[test]
fn resumes_count_appended_turns() {
    let b = tables(&text(B));
    let (_, log) = routed(&b, 36);
    let resumed = |used: usize, words: usize| {
        let (answer, count) = run_aimed(&b, Some(&log[..used]), words, 48);
        (answer.refusal, answer.numbers, count)
    };
    assert_eq!(resumed(18, 99), (vec![], vec![2, 4, 36], 6));
    assert_eq!(resumed(18, 35), (vec![8, 2, 3], vec![2, 3, 27], 3));
    assert_eq!(resumed(18, 26), (vec![8, 2, 2], vec![2, 2, 18], 0));
    assert_eq!(resumed(36, 99), (vec![14, 36], vec![0; 3], 0));
    assert_eq!(resumed(9, 99), (vec![14, 9], vec![0; 3], 0));
}

/// One net from 0 to 4, over wire 1, or over wires 2 and 3, with this delay of wire 1 and this criticality.
fn two_ways(delay: u32, criticality: u32) -> Vec<u64> {
    counts_of(&format!(
        "F,5,5,1,1 W N,0,0,1,0 N,1,4,1,{delay} N,2,4,1,0 N,3,4,1,0 N,4,1,1,0 \
        E,0,1 E,0,2 E,1,4 E,2,3 E,3,4 S,0,0 T,0,4,{criticality}"
    ))
}

/// The estimate has the weight of 10 less the criticality and no delay.
#[test]
fn timed_estimates_are_weighed() {
    // 40,000 over wire 1. Wire 2 is 20,000 away, and 40,000 from the sink: by a lower weight it would count.
    assert_eq!(two_ways(0, 0), [3]);
    // 30,000 over wires 2 and 3. Wire 1 alone is 30,000 away.
    assert_eq!(two_ways(40, 5), [4]);
    // 30,000 either way.
    assert_eq!(two_ways(20, 5), [5]);
    assert_eq!(two_ways(19, 5), [3]);
    // At criticality 9 a delay of 1,000 costs 900,000.
    assert_eq!(two_ways(1_000, 9), [4]);
    assert_eq!(two_ways(3, 9), [4]);
    assert_eq!(two_ways(2, 9), [3]);
    // The sink's delay isn't in the estimate: 94,000 over wire 1, and wire 2 has 2,000 and 4,000.
    let late = "F,5,5,1,1 W N,0,0,1,0 N,1,4,1,0 N,2,4,1,0 N,3,4,1,0 N,4,1,1,100 \
        E,0,1 E,0,2 E,1,4 E,2,3 E,3,4 S,0,0 T,0,4,9";
    assert_eq!(counts_of(late), [5]);
}

/// The turn is that of the far sink 3, the more critical one, and sink 2 is near: wire 1 leads to it alone. Then wire 1 and the
/// source lead to sink 2.
#[test]
fn timed_estimates_are_to_the_one_sink() {
    let net = "F,6,5,1,1 W N,0,0,1,0 N,1,4,1,0 N,2,1,1,0 N,3,1,1,0 N,4,4,1,0 N,5,4,1,0 \
        E,0,1 E,0,4 E,1,2 E,4,5 E,5,3 S,0,0 T,0,2,0 T,0,3,9";
    assert_eq!(counts_of(net), [4, 3]);
    // With an edge from wire 1 to wire 5 it is on a path to sink 3 that costs as much.
    let joined = net.replace("F,6,5,1,1", "F,6,6,1,1").replace("E,1,2", "E,1,2 E,1,5");
    assert_eq!(counts_of(&joined), [5, 2]);
    // A sink that the path passes is joined without a turn.
    let line = "F,4,3,1,1 W N,0,0,1,0 N,1,4,1,0 N,2,1,1,0 N,3,1,1,0 \
        E,0,1 E,1,2 E,2,3 S,0,0 T,0,2,0 T,0,3,9";
    assert_eq!(counts_of(line), [4]);
}

/// The edges by their target, in the form of tables 3 and 4.
type ByTarget = (Vec<u32>, Vec<u16>);

/// Those of these rows.
fn rows(rows: &[&[u16]]) -> ByTarget {
    let mut first = vec![0];
    for row in rows {
        first.push(first[first.len() - 1] + row.len() as u32);
    }
    (first, rows.concat())
}

/// The tables by target that belong to a sound block.
fn by_target(t: &Job) -> ByTarget {
    let nodes = t.kind.len();
    let edges = |u: usize| &t.edge_target[t.first_edge[u] as usize..t.first_edge[u + 1] as usize];
    let sources = |v: usize| (0..nodes as u16).filter(|&u| edges(u as usize).contains(&(v as u16))).collect();
    let listed: Vec<Vec<u16>> = (0..nodes).map(sources).collect();
    rows(&listed.iter().map(|row| &row[..]).collect::<Vec<_>>())
}

/// A turn alone on an untimed job's block, in its first iteration, with these tables by target, from these tree marks to these sinks: the
/// answer and the work slice afterwards, of so many entries.
fn turn_alone(t: &Job, back: &ByTarget, in_tree: &[u8], sinks: &[u16], entries: usize) -> (Answer, Vec<u64>) {
    let nodes = t.kind.len();
    let (history, others) = (vec![1; nodes], vec![0; nodes]);
    let mut work = vec![7; entries];
    let answer = aimed_path(
        &t.kind,
        &t.capacity,
        &t.first_edge,
        &t.edge_target,
        &back.0,
        &back.1,
        Weighting::UNTIMED,
        &[],
        0,
        &mut work,
        &history,
        &others,
        in_tree,
        sinks,
    );
    (answer, work)
}

/// The same with the tables by target that belong to the block, where nothing is refused: beside the plain turn.
fn turn_of(t: &Job, in_tree: &[u8], sinks: &[u16], entries: usize) -> (Answer, Vec<u64>) {
    let nodes = t.kind.len();
    let (history, others) = (vec![1; nodes], vec![0; nodes]);
    let (answer, work) = turn_alone(t, &by_target(t), in_tree, sinks, entries);
    let mut plain_work = vec![7; entries];
    let plain = cheapest_path(
        &t.kind,
        &t.capacity,
        &t.first_edge,
        &t.edge_target,
        Weighting::UNTIMED,
        &[],
        0,
        &mut plain_work,
        &history,
        &others,
        in_tree,
        sinks,
    );
    assert_eq!(answer.refusal, plain.refusal);
    assert_eq!(answer.numbers[..plain.numbers.len()], plain.numbers);
    assert_eq!(work[..3 * nodes], plain_work[..3 * nodes]);
    (answer, work)
}

const FROM_0: [u8; 6] = [1, 0, 0, 0, 0, 0];

/// The path, then 0 up to 8 × nodes; where no sink is joined the count, 0, is the only number.
#[test]
fn a_turn_alone() {
    let b = tables(&text(B));
    let mut left = vec![0; 50];
    left[..3].copy_from_slice(&[0, 2, 4]);
    left[48..].fill(7);
    let (answer, work) = turn_of(&b, &FROM_0, &[4], 50);
    assert_eq!((answer.refusal, answer.numbers, work), (vec![], vec![0, 4_000, 3, 3], left.clone()));
    left[..3].fill(0);
    let (answer, work) = turn_of(&b, &[0, 1, 0, 0, 0, 0], &[3], 50);
    assert_eq!((answer.refusal, answer.numbers, work), (vec![], vec![0], left));
    // To both sinks, as far as each other; from sink 4 there is no way on.
    assert_eq!(turn_of(&b, &FROM_0, &[5, 4], 48).0.numbers, [0, 4_000, 3, 4]);
    assert_eq!(turn_of(&b, &[1, 0, 1, 0, 1, 0], &[4, 5], 48).0.numbers, [1, 2_000, 2, 2]);
}

/// Job B has the edges 0 to 2 and 3, 1 to 2, 2 to 4 and 5, 3 to 4. Over wire 2 sink 4 is at 4,000, over wire 3 at 6,000.
#[test]
fn an_edge_counts_where_both_tables_have_it() {
    let b = tables(&text(B));
    let turn = |t: &Job, back: &ByTarget| turn_alone(t, back, &FROM_0, &[4], 48).0.numbers;
    assert_eq!(by_target(&b), rows(&[&[], &[], &[0, 1], &[0], &[2, 3], &[2]]));
    assert_eq!(turn(&b, &by_target(&b)), [0, 4_000, 3, 3]);
    // Without the edge from 2 to 4 in the tables by target wire 2 leads to sink 5 alone and has no estimate.
    assert_eq!(turn(&b, &rows(&[&[], &[], &[0, 1], &[0], &[3], &[2]])), [0, 6_000, 3, 3]);
    // Without it in tables 3 and 4 alone wire 2 has an estimate of 2,000 and is expanded.
    let without =
        Job { first_edge: vec![0, 2, 3, 4, 5, 5, 5], edge_target: vec![2, 3, 2, 5, 4], ..b.clone() };
    assert_eq!(turn(&without, &by_target(&b)), [0, 6_000, 3, 4]);
    // An edge from 0 to 4 that only one pair has is no way, and in the tables by target it makes the source's estimate 2,000.
    let with =
        Job { first_edge: vec![0, 3, 4, 6, 7, 7, 7], edge_target: vec![2, 3, 4, 2, 4, 5, 4], ..b.clone() };
    assert_eq!(turn(&with, &by_target(&b)), [0, 4_000, 3, 3]);
    assert_eq!(turn(&b, &rows(&[&[], &[], &[0, 1], &[0], &[0, 2, 3], &[2]])), [0, 4_000, 3, 3]);
    assert_eq!(turn(&with, &rows(&[&[], &[], &[0, 1], &[0], &[0, 2, 3], &[2]])), [0, 2_000, 2, 2]);
    // No edge in one of them.
    assert_eq!(turn(&b, &(vec![0; 7], vec![])), [0]);
    assert_eq!(turn(&Job { first_edge: vec![0; 7], edge_target: vec![], ..b.clone() }, &by_target(&b)), [0]);
}

/// Wire 1 leads to the sink by way of wire 2, and in the tables by target alone straight: its estimate is then 2,000 instead of 4,000.
#[test]
fn estimates_go_by_the_tables_by_target_alone() {
    let t = tables(&text(
        "F,5,5,1,1 N,0,0,1 N,1,4,1 N,2,4,1 N,3,1,1 N,4,5,1 E,0,1 E,0,4 E,1,2 E,2,3 E,4,3 S,0,0 T,0,3",
    ));
    let from = [1, 0, 0, 0, 0];
    // By way of 1 and 2, and of 4: 6,000 each, all five are expanded.
    assert_eq!(turn_of(&t, &from, &[3], 40).0.numbers, [0, 6_000, 4, 5]);
    let dear = Job { kind: vec![0, 4, 5, 1, 5], ..t };
    assert_eq!(turn_of(&dear, &from, &[3], 40).0.numbers, [0, 6_000, 3, 3]);
    // Now 1 is expanded too, 2,000 away with 2,000 to go; wire 2 is 6,000 away.
    let nearer = rows(&[&[], &[0], &[1], &[1, 2, 4], &[0]]);
    assert_eq!(turn_alone(&dear, &nearer, &from, &[3], 40).0.numbers, [0, 6_000, 3, 4]);
}

/// A row ends where its list does, a row that ends before it begins is empty, and what is no node is passed over; a node twice is once.
#[test]
fn tables_by_target_may_break_their_rules() {
    let b = tables(&text(B));
    let turn = |first: &[u32], sources: &[u16]| {
        turn_alone(&b, &(first.to_vec(), sources.to_vec()), &FROM_0, &[4], 48).0.numbers
    };
    // Rows 0 and 1 are past the end, row 4 ends there.
    assert_eq!(turn(&[90, 91, 0, 2, 3, 99, 6], &[0, 1, 0, 2, 3]), [0, 4_000, 3, 3]);
    // Row 4 falls: no way to 4.
    assert_eq!(turn(&[0, 0, 0, 2, 5, 3, 6], &[0, 1, 0, 2, 3, 2]), [0]);
    assert_eq!(turn(&[0, 0, 0, 2, 3, 7, 8], &[0, 1, 0, 2, 6, 65_535, 2, 2]), [0, 4_000, 3, 3]);
    // Rows may share places.
    assert_eq!(turn(&[0, 0, 0, 2, 0, 2, 6], &[3, 2]), [0]);
    assert_eq!(turn(&[0, 0, 0, 2, 3, 5, u32::MAX], &[0, 1, 0, 3, 3]), [0, 6_000, 3, 3]);
}

/// Nothing is written after a refusal, and no node is expanded.
fn refused(t: &Job, back: &ByTarget, in_tree: &[u8], sinks: &[u16], entries: usize) -> Vec<u64> {
    let (answer, work) = turn_alone(t, back, in_tree, sinks, entries);
    assert_eq!((answer.numbers, work), (vec![0], vec![7; entries]));
    answer.refusal
}

/// A wrong length is refused as the cheapest path refuses it, that of the first table by target last, as table 3's.
#[test]
fn a_turn_alone_refuses_wrong_lengths() {
    let b = tables(&text(B));
    let back = by_target(&b);
    assert_eq!(refused(&b, &back, &FROM_0[..5], &[4], 48), [13, 5]);
    assert_eq!(refused(&b, &back, &FROM_0, &[4], 47), [6, 48]);
    assert_eq!(refused(&b, &back, &FROM_0, &[6], 47), [5, 7]);
    assert_eq!(
        refused(&Job { kind: vec![0, 0, 54, 5, 1, 1], ..b.clone() }, &back, &FROM_0, &[6], 47),
        [5, 1]
    );
    for first in [vec![], back.0[..6].to_vec(), [&back.0[..], &[6]].concat()] {
        let short = (first, back.1.clone());
        assert_eq!(refused(&b, &short, &FROM_0, &[4], 48), [5, 3]);
        // entries are not tested, and the other lengths come before
        assert_eq!(
            refused(&Job { kind: vec![0, 0, 54, 5, 1, 1], ..b.clone() }, &short, &FROM_0, &[6], 48),
            [5, 3]
        );
        assert_eq!(refused(&b, &short, &FROM_0, &[4], 47), [6, 48]);
        assert_eq!(refused(&Job { capacity: vec![1; 5], ..b.clone() }, &short, &FROM_0, &[4], 47), [5, 2]);
    }
    // The second list by target may have any length.
    assert_eq!(turn_alone(&b, &(back.0.clone(), vec![]), &FROM_0, &[4], 48).0.numbers, [0]);
    let long = (back.0, [&back.1[..], &[9; 40_000]].concat());
    assert_eq!(turn_alone(&b, &long, &FROM_0, &[4], 48).0.numbers, [0, 4_000, 3, 3]);
}

/// Where lengths are right every number is read within its bounds, as in the cheapest path, and a sink that is no node is passed over.
#[test]
fn a_turn_alone_reads_numbers_within_their_bounds() {
    let b = tables(&text(B));
    let marks = [1, 0, 0, 0, 2, 255];
    assert_eq!(turn_of(&b, &marks, &[6, 4], 48).0.numbers, [1, 4_000, 3, 3]);
    // Kind 255 is a wire of 50 tiles, and so in the estimates.
    let long = |kind: u8| Job { kind: vec![0, 0, 4, kind, 1, 1], capacity: vec![0; 6], ..b.clone() };
    let back = rows(&[&[], &[], &[0, 1], &[0], &[3], &[2]]);
    let turn = |kind: u8| turn_alone(&long(kind), &back, &FROM_0, &[4], 48).0.numbers;
    assert_eq!(turn(53), [0, 102_000, 3, 3]);
    assert_eq!(turn(255), turn(53));
}
