//! Going on from a finished log: what follows a job and what doesn't, clause by clause, and what is appended.

mod common;
use common::*;
use job::Job;
use plain::Answer;

/// Job B's log: iteration 1 leaves wire 2 overfull, iteration 2 settles.
const B_LOG: [u32; 36] = [
    1, 0, 4, 4000, 0, 3, 0, 2, 4, 1, 1, 5, 4000, 0, 3, 1, 2, 5, //
    2, 0, 4, 6000, 0, 3, 0, 3, 4, 2, 1, 5, 6000, 0, 3, 1, 2, 5,
];

/// Job B with this limit.
fn b(limit: u32) -> Job {
    Job { limit, ..tables(&text(B)) }
}

/// Net 0 has two sinks, 4 and 6, and wires 2 and 3 to them; net 1 has wire 2 alone.
fn two_sinks() -> Job {
    tables(&text(
        "F,7,10,2,9 N,0,0,1 N,1,0,1 N,2,4,1 N,3,4,1 N,4,1,1 N,5,1,1 N,6,1,1 \
        E,0,2 E,0,3 E,1,2 E,2,3 E,2,4 E,2,5 E,3,2 E,3,4 E,3,6 E,4,6 S,0,0 T,0,4 T,0,6 S,1,1 T,1,5",
    ))
}

/// A record of a path that ends in its sink.
fn record(iteration: u32, net: u32, cost: u32, path: &[u32]) -> Vec<u32> {
    let head = [iteration, net, path[path.len() - 1], cost, 0, path.len() as u32];
    [&head, path].concat()
}

/// Net 1's record of iteration 1.
fn last() -> Vec<u32> {
    record(1, 1, 4000, &[1, 2, 5])
}

/// Goes on from a log in a slice of so many words, marked past it.
fn resumed_in(job: &Job, lent: &[u32], words: usize) -> (Answer, Vec<u32>) {
    let mut log = lent.to_vec();
    log.resize(words, MARK);
    let answer = zeroing(job, |work| resume_with(job, lent.len() as u64, work, &mut log));
    (answer, log)
}

fn resumed(job: &Job, lent: &[u32]) -> (Answer, Vec<u32>) {
    resumed_in(job, lent, lent.len() + 400)
}

/// Goes on from a log, which is turned away.
fn word(job: &Job, lent: &[u32]) -> u64 {
    let (answer, log) = resumed(job, lent);
    assert_eq!(answer.numbers, [0; 3]);
    assert_eq!(log[..lent.len()], *lent);
    assert!(log[lent.len()..].iter().all(|&w| w == MARK));
    let [14, word] = answer.refusal[..] else { panic!("{:?}", answer.refusal) };
    word
}

/// Goes on from records of the job of two sinks.
fn word_of(records: &[Vec<u32>]) -> u64 {
    word(&two_sinks(), &records.concat())
}

#[test]
fn job_b_goes_on_from_iteration_1() {
    for words in [36, 40] {
        let (answer, log) = resumed_in(&b(2), &B_LOG[..18], words);
        assert_eq!(answer, Answer { refusal: vec![], numbers: vec![2, 4, 36] });
        assert_eq!(log[..36], B_LOG);
        assert!(log[36..].iter().all(|&w| w == MARK));
    }
}

#[test]
fn words_past_those_used_are_not_read() {
    let mut log = [&B_LOG[..18], &[9, 9, 9, 9, 9, u32::MAX], &B_LOG[..12]].concat();
    let answer = zeroing(&b(2), |work| resume_with(&b(2), 18, work, &mut log));
    assert_eq!((answer.numbers, &log[..]), (vec![2, 4, 36], &B_LOG[..]));
}

#[test]
fn appended_turns_can_fill_the_log() {
    for (words, turns) in [(18, 2), (26, 2), (27, 3), (35, 3)] {
        let (answer, log) = resumed_in(&b(2), &B_LOG[..18], words);
        let used = 9 * turns as usize;
        assert_eq!((answer.refusal, answer.numbers), (vec![8, 2, turns], vec![2, turns, used as u64]));
        assert_eq!(log[..used], B_LOG[..used]);
        assert!(log[used..].iter().all(|&w| w == MARK));
    }
}

/// Without a factor the nets of job B stay on wire 2.
#[test]
fn the_limit_can_come_again() {
    let job = tables(&b_with("P,0,1,1,1"));
    let (answer, log) = resumed(&job, &B_LOG[..18]);
    assert_eq!((answer.refusal, answer.numbers), (vec![9, 2, 1], vec![2, 4, 36]));
    assert_eq!(log[18..27], [2, 0, 4, 6000, 0, 3, 0, 2, 4]);
}

/// Net 0 goes the longer way and to the farther sink first, which any lent log may.
#[test]
fn neither_cheapest_nor_nearest_is_asked() {
    let lent = [record(1, 0, 6000, &[0, 2, 3, 6]), record(1, 0, 2000, &[2, 4]), last()].concat();
    let (answer, log) = resumed(&two_sinks(), &lent);
    assert_eq!((answer.refusal, answer.numbers), (vec![], vec![2, 6, 53]));
    // wire 2 has history 2 and net 1's tree, 2 x 20 x 150; wire 3 is free. Then net 1 has wire 2 alone.
    let appended = [(2, 0, 4000, vec![0, 3, 4]), (2, 0, 2000, vec![3, 6]), (2, 1, 6000, vec![1, 2, 5])];
    assert_eq!(turns(&log[27..53]), appended);
}

#[test]
fn iterations_begin_with_1() {
    assert_eq!(word(&b(9), &[&[2], &B_LOG[1..18]].concat()), 0);
    assert_eq!(word(&b(9), &[&[0], &B_LOG[1..18]].concat()), 0);
    assert_eq!(word(&b(9), &B_LOG[18..]), 0);
    assert_eq!(word(&b(9), &[&B_LOG[..9], &[2], &B_LOG[10..18]].concat()), 9);
    // Iteration 2 comes after iteration 1, and no other.
    assert_eq!(word(&b(9), &[&B_LOG[..18], &[3], &B_LOG[19..]].concat()), 18);
    assert_eq!(word(&b(9), &[&B_LOG[..18], &B_LOG[..18]].concat()), 18);
}

#[test]
fn nets_come_in_order() {
    assert_eq!(word(&b(9), &[&B_LOG[9..18], &B_LOG[..9]].concat()), 0);
    assert_eq!(word(&b(9), &[&B_LOG[..9], &B_LOG[..9]].concat()), 9);
    assert_eq!(word(&b(9), &[&[1, 2], &B_LOG[2..18]].concat()), 0);
    assert_eq!(word(&b(9), &[&[1, u32::MAX], &B_LOG[2..18]].concat()), 0);
}

#[test]
fn a_net_makes_turns_until_its_sinks_are_joined() {
    let (one, two) = (record(1, 0, 4000, &[0, 2, 4]), record(1, 0, 2000, &[4, 6]));
    assert!(resumed(&two_sinks(), &[&one[..], &two, &last()].concat()).0.refusal.is_empty());
    assert_eq!(word_of(&[one.clone(), last()]), 9);
    assert_eq!(word_of(&[one.clone(), two.clone(), two.clone(), last()]), 17);
    assert_eq!(word_of(&[one, two, last(), last()]), 26);
}

#[test]
fn a_path_goes_along_edges() {
    assert_eq!(word_of(&[record(1, 0, 2000, &[0, 4])]), 0);
    assert_eq!(word_of(&[record(1, 0, 6000, &[0, 1, 2, 4])]), 0);
    for node in [7, 8, 65_538, u32::MAX] {
        assert_eq!(word_of(&[record(1, 0, 4000, &[0, node, 4])]), 0);
        assert_eq!(word_of(&[record(1, 0, 4000, &[node, 2, 4])]), 0);
    }
}

#[test]
fn a_path_has_no_node_twice() {
    assert_eq!(word_of(&[record(1, 0, 8000, &[0, 2, 3, 2, 4])]), 0);
}

#[test]
fn the_first_node_is_in_the_tree() {
    let one = record(1, 0, 4000, &[0, 2, 4]);
    assert_eq!(word_of(&[one, record(1, 0, 2000, &[3, 6])]), 9);
    assert_eq!(word_of(&[record(1, 0, 2000, &[2, 4])]), 0);
}

#[test]
fn no_later_node_is_in_the_tree() {
    let one = record(1, 0, 4000, &[0, 2, 4]);
    assert_eq!(word_of(&[one.clone(), record(1, 0, 6000, &[0, 2, 3, 6])]), 9);
    assert_eq!(word_of(&[one, record(1, 0, 4000, &[2, 4, 6])]), 9);
}

#[test]
fn the_last_node_is_the_sink() {
    let mut other = record(1, 0, 4000, &[0, 2, 4]);
    other[2] = 6;
    assert_eq!(word_of(&[other]), 0);
    // A path of one node or none ends in no unjoined sink.
    assert_eq!(word_of(&[record(1, 0, 0, &[0])]), 0);
    assert_eq!(word(&two_sinks(), &[1, 0, 4, 0, 0, 0, 4]), 0);
}

#[test]
fn the_sink_is_one_of_the_net() {
    assert_eq!(word_of(&[record(1, 0, 4000, &[0, 2, 5])]), 0);
    assert_eq!(word_of(&[record(1, 0, 2000, &[0, 2])]), 0);
}

#[test]
fn no_other_unjoined_sink_is_on_the_path() {
    assert_eq!(word_of(&[record(1, 0, 6000, &[0, 2, 4, 6])]), 0);
    // Another net's sinks may be passed, and joined ones: not in a job whose sinks have no edges.
    let passing = tables(&text(
        "F,5,5,2,9 N,0,0,1 N,1,0,1 N,2,4,1 N,3,1,2 N,4,1,1 E,0,2 E,1,2 E,2,3 E,2,4 E,3,4 S,0,0 T,0,4 S,1,1 T,1,3",
    ));
    let lent = [record(1, 0, 6000, &[0, 2, 3, 4]), record(1, 1, 4000, &[1, 2, 3])].concat();
    assert_eq!(resumed(&passing, &lent).0.refusal[..1], [9]);
}

#[test]
fn the_cost_is_the_sum_of_the_prices() {
    for cost in [0, 3999, 4001, 6000] {
        assert_eq!(word_of(&[record(1, 0, cost, &[0, 2, 4])]), 0);
    }
    let mut high = record(1, 0, 4000, &[0, 2, 4]);
    high[4] = 1;
    assert_eq!(word_of(&[high]), 0);
    // In iteration 2 by history, factor and the other trees: B_LOG's 6000 and no other.
    assert_eq!(word(&b(9), &B_LOG), 36);
    for cost in [4000, 5999, 6001] {
        assert_eq!(word(&b(9), &[&B_LOG[..21], &[cost], &B_LOG[22..]].concat()), 18);
        assert_eq!(word(&b(9), &[&B_LOG[..30], &[cost], &B_LOG[31..]].concat()), 27);
    }
}

#[test]
fn no_words_are_no_log() {
    assert_eq!(word(&b(2), &[]), 0);
    assert_eq!(resumed_in(&b(2), &[], 0).0.refusal, [14, 0]);
}

#[test]
fn more_words_than_there_are() {
    let mut log = B_LOG[..18].to_vec();
    for used in [19, 36, 1 << 32, (1 << 32) + 18, u64::MAX] {
        let answer = zeroing(&b(2), |work| resume_with(&b(2), used, work, &mut log));
        assert_eq!((answer.refusal, answer.numbers), (vec![14, 18], vec![0; 3]));
    }
    assert_eq!(log, B_LOG[..18]);
}

#[test]
fn a_record_that_is_cut_short() {
    for used in 1..36 {
        let word = if used == 18 { continue } else { used / 9 * 9 };
        assert_eq!(self::word(&b(9), &B_LOG[..used]), word as u64, "{used}");
    }
    let mut long = B_LOG[..18].to_vec();
    long[14] = 4;
    assert_eq!(word(&b(9), &long), 9);
    long[14] = u32::MAX;
    assert_eq!(word(&b(9), &long), 9);
}

#[test]
fn an_end_inside_an_iteration() {
    assert_eq!(word(&b(9), &B_LOG[..9]), 9);
    assert_eq!(word(&b(9), &B_LOG[..27]), 27);
}

#[test]
fn a_last_iteration_that_settles() {
    for limit in [2, 3, 100] {
        assert_eq!(word(&b(limit), &B_LOG), 36);
        // And a record after it, which has no place.
        assert_eq!(word(&b(limit), &[&B_LOG[..], &[3], &B_LOG[1..9]].concat()), 36);
    }
}

#[test]
fn a_last_iteration_at_the_limit() {
    assert_eq!(word(&b(1), &B_LOG[..18]), 18);
    // And records above it.
    assert_eq!(word(&b(1), &B_LOG), 18);
    assert_eq!(word(&b(1), &B_LOG[..27]), 18);
}

/// 5, 6, 7, then 14, then 8 and 9: each before all those after it.
#[test]
fn the_order_of_the_tests() {
    let numbers = |job: &Job, entries: usize| {
        let (mut work, mut log) = (vec![MARK as u64; entries], vec![5; 7]);
        let answer = resume_with(job, 9, &mut work, &mut log);
        assert_eq!((answer.numbers, log), (vec![0; 3], vec![5; 7]));
        (answer.refusal, work.iter().all(|&w| w == MARK as u64))
    };
    let mut cut = b(2);
    (cut.edge_target[3], cut.edge_target[4]) = (3, 4);
    assert_eq!(numbers(&Job { until: 0, ..cut.clone() }, 47), (vec![5, 8], true));
    assert_eq!(numbers(&cut, 47), (vec![6, 48], true));
    assert_eq!(numbers(&cut, 48), (vec![7, 1, 0], false));
    assert_eq!(numbers(&b(2), 48), (vec![14, 7], false));
    // 14 before 8: the log has no room for another record.
    assert_eq!(resumed_in(&b(1), &B_LOG[..18], 18).0.refusal, [14, 18]);
}

/// The words of a log's first iterations, so many.
fn iterations(log: &[u32], count: u32) -> usize {
    let parts = turns(log).into_iter().filter(|turn| turn.0 <= count);
    parts.map(|turn| 6 + turn.3.len()).sum()
}

/// A net that goes to and fro between two wires, each wanted by another net.
const BETWEEN: &str = "F,9,10,3,20 N,0,0,1 N,1,0,1 N,2,0,1 N,3,4,1 N,4,4,1 N,5,6,1 N,6,1,1 N,7,1,1 N,8,1,1 \
    E,0,3 E,0,4 E,1,3 E,2,4 E,2,5 E,3,6 E,3,7 E,4,6 E,4,8 E,5,8 S,0,0 T,0,6 S,1,1 T,1,7 S,2,2 T,2,8";

/// From every whole iteration but the last, in logs long enough and not, under both rules and some k.
#[test]
fn an_own_log_ends_as_the_straight_run() {
    for (rule, until) in [(1, 1), (2, 1), (2, 2), (2, 3), (2, 99)] {
        let job = Job { rule, until, ..tables(&text(BETWEEN)) };
        let (whole, log) = routed(&job, 2_000);
        assert_eq!(whole.refusal, [0; 0]);
        for words in [2_000, whole.numbers[2] as usize, whole.numbers[2] as usize - 1] {
            let (straight, written) = routed(&job, words);
            for count in 1..whole.numbers[0] as u32 {
                let used = iterations(&log[..whole.numbers[2] as usize], count);
                let (answer, resumed) = resumed_in(&job, &log[..used], words);
                assert_eq!((answer, resumed), (straight.clone(), written.clone()), "{rule} {until} {count}");
            }
        }
    }
}

/// After 9 under a limit, the log goes on under a higher one.
#[test]
fn the_limit_is_raised() {
    let job = tables(&text(BETWEEN));
    let straight = routed(&job, 900);
    for limit in 1..straight.0.numbers[0] as u32 {
        let (answer, log) = routed(&Job { limit, ..job.clone() }, 900);
        assert_eq!(answer.refusal[..1], [9]);
        assert_eq!(resumed_in(&job, &log[..answer.numbers[2] as usize], 900), straight);
    }
}

/// Under rule 2 net 2 is not due in iteration 2; under rule 1, and under rule 2 up to iteration 2, it is.
#[test]
fn the_nets_due_make_the_turns() {
    let by = |rule: u32, until: u32| Job { rule, until, ..tables(&text(BETWEEN)) };
    let (all, crowded) = (routed(&by(1, 1), 900).1, routed(&by(2, 1), 900).1);
    assert_eq!(all[..45], crowded[..45]);
    assert_eq!(word(&by(2, 1), &all[..54]), 45);
    assert_eq!(word(&by(1, 1), &crowded[..45]), 45);
    assert_eq!(word(&by(1, 1), &crowded[..63]), 45);
    assert_eq!(word(&by(2, 2), &crowded[..63]), 45);
    assert!(resumed(&by(2, 2), &all[..54]).0.refusal.is_empty());
    assert!(resumed(&by(2, 1), &crowded[..45]).0.refusal.is_empty());
}

/// Net 2 is joined into net 0, and its sink is one of that net: no record names it.
#[test]
fn joined_nets_are_those_of_the_first() {
    let lines = B.replacen("F,6,6,2,2", "F,6,6,3,2", 1) + " S,2,0 T,2,4";
    let job = tables(&text(&lines));
    assert_eq!(resumed(&job, &B_LOG[..18]).0.numbers, [2, 4, 36]);
    assert_eq!(word(&job, &[&B_LOG[..18], &[1, 2], &B_LOG[2..9]].concat()), 18);
    assert_eq!(word(&job, &[&[1, 2], &B_LOG[2..18]].concat()), 0);
}
