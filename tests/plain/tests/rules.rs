//! The rule by which nets are routed again and the iteration up to which it is rule 1: their line, their bounds, and what they move in log
//! and routes text.

mod common;
use common::*;
use job::Job;
use plain::Answer;

#[test]
fn the_line_is_read() {
    for (lines, terms) in [
        ("", [2, 50, 3, 2, 1, 1, 1, 0]),
        ("V,1", [2, 50, 3, 2, 1, 1, 1, 0]),
        ("V,2", [2, 50, 3, 2, 1, 2, 1, 0]),
        ("V,2,1", [2, 50, 3, 2, 1, 2, 1, 0]),
        ("V,2,2", [2, 50, 3, 2, 1, 2, 2, 0]),
        ("V,2,99", [2, 50, 3, 2, 1, 2, 99, 0]),
        ("P,7,4,4,2 V,1", [2, 7, 4, 4, 2, 1, 1, 0]),
        ("P,7,4,4,2 V,2", [2, 7, 4, 4, 2, 2, 1, 0]),
        ("P,7,4,4,2 V,2,7", [2, 7, 4, 4, 2, 2, 7, 0]),
    ] {
        assert_eq!(tables(&b_with(lines)).terms(), terms, "{lines}");
    }
}

#[test]
fn lines_of_wrong_shape_or_place() {
    let shapes = ["V", "V,", "V,2,", "V,2,1,", "V,2,1,1", "V,2,01", "V,2,0000001", "V,2,+1", "V,2,,1"];
    let others = ["V,02", "v,2", "V,,2", "V,+2", "V,0000002", "W,2"];
    // Rule 1 takes no second number, whatever it is.
    let of_rule_1 = ["V,1,", "V,1,0", "V,1,1", "V,1,2", "V,1,99", "V,1,100", "V,1,999999"];
    for line in [&shapes[..], &others, &of_rule_1].concat() {
        assert_eq!(refusal(&b_with(line)), [1, 2], "{line}");
        assert_eq!(refusal(&b_with(&format!("P,50,3,2,1 {line}"))), [1, 3], "{line}");
    }
    assert_eq!(refusal(&b_with("V,2").replace("V,2\n", "V,2\r\n")), [1, 2]);
    assert_eq!(refusal("F,6,6,2,2\nV,2"), [1, 2]);
    assert_eq!(refusal("F,6,6,2,2\nV,3"), [1, 2]);
    assert_eq!(refusal("F,6,6,2,2\nV,2\n"), [1, 3]);
    assert_eq!(refusal(&b_with("V,2 V,2")), [1, 3]);
    assert_eq!(refusal(&b_with("V,2 P,50,3,2,1")), [1, 3]);
    assert_eq!(refusal(&b_with("P,50,3,2,1 V,2 P,50,3,2,1")), [1, 4]);
    assert_eq!(refusal(&text(&format!("V,2 {B}"))), [1, 1]);
    for (line, number) in [("N,1,0,1", 3), ("E,0,2", 8), ("S,0,0", 14), ("T,0,4", 15), ("S,1,1", 16)] {
        assert_eq!(refusal(&text(&B.replace(line, &format!("V,2 {line}")))), [1, number], "{line}");
    }
    assert_eq!(refusal(&text(&format!("{B} V,2"))), [1, 18]);
}

#[test]
fn lines_beyond_bounds() {
    for rule in ["0", "3", "4", "12", "22", "258", "65538", "999999"] {
        assert_eq!(refusal(&b_with(&format!("V,{rule}"))), [2, 2], "{rule}");
        assert_eq!(refusal(&b_with(&format!("P,50,3,2,1 V,{rule}"))), [2, 3], "{rule}");
    }
    for line in ["V,2,0", "V,2,100", "V,2,101", "V,2,257", "V,2,999999", "V,3,1", "V,3,0", "V,0,1", "V,0,100"]
    {
        assert_eq!(refusal(&b_with(line)), [2, 2], "{line}");
    }
    // The first faulty line counts.
    assert_eq!(refusal(&b_with("P,1001,3,2,1 V,3")), [2, 2]);
    assert_eq!(refusal(&b_with("V,3").replace("N,0,0,1", "N,0,54")), [2, 2]);
    assert_eq!(refusal(&b_with("V,2").replace("N,0,0,1", "N,0,54,1")), [2, 3]);
}

/// Routes job B by a slice of terms.
fn by_terms(terms: &[u32]) -> Answer {
    let (mut work, mut log) = (vec![9; 48], vec![9; 36]);
    let answer = route_by(&tables(&text(B)), terms, &mut work, &mut log);
    if answer.refusal == [5, 8] {
        assert_eq!((work, log), (vec![9; 48], vec![9; 36]));
    }
    answer
}

#[test]
fn rules_beyond_bounds_in_a_call() {
    for rule in [0, 3, 4, 256, 257, 258, 65_538, u32::MAX] {
        assert_eq!(by_terms(&[2, 50, 3, 2, 1, rule]), Answer { refusal: vec![5, 8], numbers: vec![0; 3] });
    }
    for rule in [1, 2] {
        assert_eq!(by_terms(&[2, 50, 3, 2, 1, rule]).numbers, [2, 4, 36]);
        // Under either rule.
        for until in [0, 100, 101, 257, 65_537, u32::MAX] {
            assert_eq!(by_terms(&[2, 50, 3, 2, 1, rule, until]).refusal, [5, 8], "{rule} {until}");
        }
        for until in [1, 2, 98, 99] {
            assert_eq!(by_terms(&[2, 50, 3, 2, 1, rule, until]).numbers, [2, 4, 36]);
        }
    }
}

#[test]
fn terms_that_the_slice_lacks_are_plain() {
    // A limit of 0 is none.
    assert_eq!(by_terms(&[]).refusal, [5, 8]);
    let plain = [2, 50, 3, 2, 1, 1, 1];
    for count in 1..=7 {
        assert_eq!(by_terms(&plain[..count]).numbers, [2, 4, 36]);
    }
    // An entry past k that is 0 says that the job is untimed; entries past that aren't read.
    assert_eq!(by_terms(&[2, 50, 3, 2, 1, 1, 1, 0, u32::MAX]).numbers, [2, 4, 36]);
    // A factor of 0 in iteration 2 doesn't part the nets, a bad one is told.
    assert_eq!(by_terms(&[2, 0]).refusal, [9, 2, 1]);
    assert_eq!(by_terms(&[2, 1001]).refusal, [5, 8]);
    assert_eq!(by_terms(&[2, 50, 3, 4]).refusal, [5, 8]);
}

/// Log and routes text of a job that is accepted, by a rule.
fn accepted(job: &Job, rule: u32) -> (Vec<u32>, String) {
    let (answer, log) = routed(&Job { rule, ..job.clone() }, 2_000);
    assert_eq!(answer.refusal, [0; 0]);
    let log = log[..answer.numbers[2] as usize].to_vec();
    assert_eq!(answer.numbers[1], turns(&log).len() as u64);
    let routes = written(&job.source, &log);
    (log, routes)
}

/// Job B with a third net that has a wire for itself: the tree of net 2 stays.
#[test]
fn a_tree_without_overfull_node_stays() {
    let lines = "F,9,9,3,9 N,0,0,1 N,1,0,1 N,2,0,1 N,3,4,1 N,4,5,1 N,5,4,1 N,6,1,1 N,7,1,1 N,8,1,1 \
        E,0,3 E,0,4 E,1,3 E,2,5 E,3,6 E,3,7 E,4,6 E,5,7 E,5,8 S,0,0 T,0,6 S,1,1 T,1,7 S,2,2 T,2,8";
    let job = tables(&text(lines));
    let first = [(1, 0, 4000, vec![0, 3, 6]), (1, 1, 4000, vec![1, 3, 7]), (1, 2, 4000, vec![2, 5, 8])];
    let second = [(2, 0, 6000, vec![0, 4, 6]), (2, 1, 6000, vec![1, 3, 7]), (2, 2, 4000, vec![2, 5, 8])];
    let branches = "B,0,0,4 B,0,4,6 B,1,1,3 B,1,3,7 B,2,2,5 B,2,5,8";
    let (log, routes) = accepted(&job, 1);
    assert_eq!(turns(&log), [first.clone(), second.clone()].concat());
    assert_eq!(routes, text(&format!("R,2,6 {branches}")));
    // Net 2 makes no turn in iteration 2, and its branches are those of iteration 1.
    let (log, routes) = accepted(&job, 2);
    assert_eq!(turns(&log), [&first[..], &second[..2]].concat());
    assert_eq!(routes, text(&format!("R,2,5 {branches}")));
}

/// Rule 1 up to iteration 2, rule 2 after it: in iteration 2 every net is routed again, in iteration 3 the two of the overfull wire.
#[test]
fn rule_2_holds_after_iteration_k() {
    let job = tables(&text(&BETWEEN.replace("F,9,10,3,20", "F,9,10,3,3")));
    let nets = |until: u32| -> Vec<(u32, u32)> {
        let (answer, log) = routed(&Job { rule: 2, until, ..job.clone() }, 100);
        assert_eq!(answer.refusal[..2], [9, 3]);
        turns(&log[..answer.numbers[2] as usize]).iter().map(|turn| (turn.0, turn.1)).collect()
    };
    let all = |iteration: u32| [(iteration, 0), (iteration, 1), (iteration, 2)];
    assert_eq!(nets(1), [&all(1)[..], &[(2, 0), (2, 1)], &[(3, 0), (3, 2)]].concat());
    assert_eq!(nets(2), [&all(1)[..], &all(2), &[(3, 0), (3, 2)]].concat());
    for until in [3, 4, 99] {
        assert_eq!(nets(until), [all(1), all(2), all(3)].concat());
    }
    let rule_1 = routed(&job, 100);
    assert_eq!(routed(&Job { rule: 2, until: 3, ..job.clone() }, 100), rule_1);
    // Under rule 1 the number is of no account.
    assert_eq!(routed(&Job { until: 1, ..job.clone() }, 100), routed(&Job { until: 2, ..job.clone() }, 100));
}

/// At its place in iteration 2 net 1 is alone on wire 2, but it wasn't when the iteration began.
#[test]
fn due_is_fixed_at_the_start() {
    let job = tables(&text(B));
    assert_eq!(accepted(&job, 1), accepted(&job, 2));
}

/// Net 1 passes the source of net 0, and no other node is overfull: both are due.
#[test]
fn the_source_counts() {
    let lines = "F,5,5,2,9 N,0,0,1 N,1,0,1 N,2,1,1 N,3,1,1 N,4,5,1 E,0,2 E,0,3 E,1,0 E,1,4 E,4,2 \
        S,0,0 T,0,3 S,1,1 T,1,2";
    let (log, routes) = accepted(&tables(&text(lines)), 2);
    let expected = [
        (1, 0, 2000, vec![0, 3]),
        (1, 1, 4000, vec![1, 0, 2]),
        (2, 0, 2000, vec![0, 3]),
        (2, 1, 6000, vec![1, 4, 2]),
    ];
    assert_eq!(turns(&log), expected);
    assert_eq!(routes, text("R,2,4 B,0,0,3 B,1,1,4 B,1,4,2"));
}

/// Net 0 goes to and fro between wire 3, which net 1 needs, and wire 4, which net 2 leaves only for the longer wire 5.
const BETWEEN: &str = "F,9,10,3,20 N,0,0,1 N,1,0,1 N,2,0,1 N,3,4,1 N,4,4,1 N,5,6,1 N,6,1,1 N,7,1,1 N,8,1,1 \
    E,0,3 E,0,4 E,1,3 E,2,4 E,2,5 E,3,6 E,3,7 E,4,6 E,4,8 E,5,8 S,0,0 T,0,6 S,1,1 T,1,7 S,2,2 T,2,8";

/// In each iteration from 2 on the nets of the node that was overfull are due; the tree that stays counts in prices and histories.
#[test]
fn kept_trees_count_among_the_users() {
    let (log, routes) = accepted(&tables(&text(BETWEEN)), 2);
    let (left, right) = (vec![0, 3, 6], vec![0, 4, 6]);
    let (one, two) = (vec![1, 3, 7], vec![2, 4, 8]);
    let expected = [
        (1, 0, 4000, left.clone()),
        (1, 1, 4000, one.clone()),
        (1, 2, 4000, two.clone()),
        // wire 4 has the kept tree of net 2: 20 x 150, then the sink's 2000; wire 3 has history 2 and net 1: 2 x 20 x 150
        (2, 0, 5000, right.clone()),
        (2, 1, 6000, one.clone()),
        // factor 75; both wires have history 2 and another net's tree, so the lower: 2 x 20 x 175. Net 1 keeps its tree.
        (3, 0, 9000, left.clone()),
        (3, 2, 6000, two.clone()),
        // factor 112; wire 3 has history 3, wire 4 history 2: 2 x 20 x 212
        (4, 0, 10480, right.clone()),
        (4, 1, 8000, one.clone()),
        // factor 168: 3 x 20 x 268 on both; net 2 on wire 4 as dear as on 5
        (5, 0, 18080, left.clone()),
        (5, 2, 8000, two),
        // factor 252: 3 x 20 x 352
        (6, 0, 23120, right.clone()),
        (6, 1, 10000, one.clone()),
        // factor 378: 4 x 20 x 478; net 2 leaves wire 4, of history 4
        (7, 0, 40240, left),
        (7, 2, 8000, vec![2, 5, 8]),
        // wire 4 is free
        (8, 0, 10000, right),
        (8, 1, 12000, one),
    ];
    assert_eq!(turns(&log), expected);
    assert_eq!(routes, text("R,8,17 B,0,0,4 B,0,4,6 B,1,1,3 B,1,3,7 B,2,2,5 B,2,5,8"));
}

/// 9 counts an overfull node that only a kept tree and a new one share.
#[test]
fn kept_trees_count_at_the_limit() {
    let lines = BETWEEN.replace("F,9,10,3,20", "F,9,10,3,2 V,2");
    let (answer, log) = routed(&tables(&text(&lines)), 100);
    assert_eq!((answer.refusal, answer.numbers), (vec![9, 2, 1], vec![2, 5, 45]));
    assert_eq!(log[36..45], [2, 1, 7, 6000, 0, 3, 1, 3, 7]);
    // The log ends before iteration 3's first record.
    let lines = BETWEEN.replace("F,9,10,3,20", "F,9,10,3,3 V,2");
    assert_eq!(routed(&tables(&text(&lines)), 53).0.refusal, [8, 3, 5]);
}

/// Joined nets stay or go as one.
#[test]
fn joined_nets_are_due_as_one() {
    let lines = "F,9,8,4,9 N,0,0,1 N,1,0,1 N,2,0,1 N,3,4,1 N,4,5,1 N,5,4,1 N,6,1,1 N,7,1,1 N,8,1,2 \
        E,0,3 E,0,4 E,1,3 E,2,5 E,3,6 E,3,7 E,4,6 E,5,8 S,0,2 T,0,8 S,1,0 T,1,6 S,2,1 T,2,7 S,3,2 T,3,8";
    let (log, routes) = accepted(&tables(&text(lines)), 2);
    let nets: Vec<(u32, u32)> = turns(&log).iter().map(|turn| (turn.0, turn.1)).collect();
    assert_eq!(nets, [(1, 0), (1, 1), (1, 2), (2, 1), (2, 2)]);
    assert_eq!(routes, text("R,2,5 B,0,2,5 B,0,5,8 B,1,0,4 B,1,4,6 B,2,1,3 B,2,3,7 J,3,0"));
}

/// A record with a path and nothing else of note.
fn record(iteration: u32, net: u32, path: &[u32]) -> Vec<u32> {
    let head = [iteration, net, path[path.len() - 1], 0, 0, path.len() as u32];
    [&head, path].concat()
}

/// The writer takes any sound log: nets in any order, in an iteration too, and none that has to come.
#[test]
fn branches_by_net_from_the_latest_records() {
    let source = [10, 11, 12, 10, 13];
    let log = [
        record(3, 2, &[12, 1]),
        record(3, 0, &[10, 2]),
        record(3, 2, &[12, 4, 3]),
        record(5, 1, &[11, 5]),
        record(5, 0, &[10, 6]),
        record(5, 1, &[11, 7]),
        record(5, 0, &[10, 8]),
        record(9, 1, &[11, 9]),
    ];
    let routes = "B,0,10,6 B,0,10,8 B,1,11,9 B,2,12,1 B,2,12,4 B,2,4,3 J,3,0";
    assert_eq!(written(&source, &log.concat()), text(&format!("R,9,8 {routes}")));
    // Without the last record net 1 has those of iteration 5, which is R's too.
    let routes = "B,0,10,6 B,0,10,8 B,1,11,5 B,1,11,7 B,2,12,1 B,2,12,4 B,2,4,3 J,3,0";
    assert_eq!(written(&source, &log[..7].concat()), text(&format!("R,5,7 {routes}")));
    // Of iteration 3 alone.
    let routes = "B,0,10,2 B,2,12,1 B,2,12,4 B,2,4,3 J,3,0";
    assert_eq!(written(&source, &log[..3].concat()), text(&format!("R,3,3 {routes}")));
}
