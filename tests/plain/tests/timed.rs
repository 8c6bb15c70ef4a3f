//! Timed jobs: their text, their tables, their prices, the order of their sinks, and what the other calls make of them.

mod common;
use common::*;
use job::{jobs, Job};
use plain::{timed_price, timed_search, Answer};

/// One net from 0 to the sinks 5, 3 and 4, of criticality 2, 9 and 9. Wire 1 is dear in delay.
const T: &str = "F,6,9,1,2 W N,0,0,1,0 N,1,4,2,900 N,2,5,2,10 N,3,1,2,0 N,4,3,2,5 N,5,1,2,1000 \
    E,0,1 E,0,2 E,1,3 E,1,4 E,1,5 E,2,1 E,2,3 E,2,5 E,4,5 S,0,0 T,0,5,2 T,0,3,9 T,0,4,9";

/// Two nets over wire 2; net 0 can take wire 3. Its sinks 4 and 5, of criticality 1 and 8, have edges to each other.
const TWO: &str = "F,7,10,2,9 W N,0,0,1,0 N,1,0,1,0 N,2,4,1,1 N,3,5,1,0 N,4,1,1,0 N,5,1,1,2 N,6,1,1,0 \
    E,0,2 E,0,3 E,1,2 E,2,4 E,2,5 E,2,6 E,3,4 E,3,5 E,4,5 E,5,4 S,0,0 T,0,4,1 T,0,5,8 S,1,1 T,1,6,0";

fn answer(refusal: &[u64], numbers: &[u64]) -> Answer {
    Answer { refusal: refusal.to_vec(), numbers: numbers.to_vec() }
}

/// T with a change.
fn changed(from: &str, to: &str) -> String {
    assert!(T.contains(from));
    text(&T.replacen(from, to, 1))
}

/// The same tables as those of a timed job, of which 9 and 10 are left out.
fn untimed(job: &Job) -> Job {
    Job { timed: 0, delay: vec![], criticality: vec![], ..job.clone() }
}

#[test]
fn the_line_makes_a_job_timed() {
    let mut t = Job::unread([9; 9]);
    let got = read_into(text(T).as_bytes(), &mut t);
    assert_eq!(got, answer(&[], &[6, 9, 1, 3, 2, 50, 3, 2, 1, 1, 1, 1]));
    // Entries past those needed stay as they were.
    let mut wanted = Job::unread([9; 9]);
    wanted.kind[..6].copy_from_slice(&[0, 4, 5, 1, 3, 1]);
    wanted.capacity[..6].copy_from_slice(&[1, 2, 2, 2, 2, 2]);
    wanted.first_edge[..7].copy_from_slice(&[0, 2, 5, 8, 8, 9, 9]);
    wanted.edge_target.copy_from_slice(&[1, 2, 3, 4, 5, 1, 3, 5, 5]);
    wanted.source[..1].copy_from_slice(&[0]);
    wanted.first_sink[..2].copy_from_slice(&[0, 3]);
    wanted.sink[..3].copy_from_slice(&[5, 3, 4]);
    wanted.delay[..6].copy_from_slice(&[0, 900, 10, 0, 5, 1000]);
    wanted.criticality[..3].copy_from_slice(&[2, 9, 9]);
    assert_eq!(t, wanted);
}

#[test]
fn it_comes_after_f_and_any_p_and_v() {
    for (lines, terms) in [
        ("W", [2, 50, 3, 2, 1, 1, 1, 1]),
        ("P,7,4,4,2 W", [2, 7, 4, 4, 2, 1, 1, 1]),
        ("V,1 W", [2, 50, 3, 2, 1, 1, 1, 1]),
        ("V,2,7 W", [2, 50, 3, 2, 1, 2, 7, 1]),
        ("P,7,4,4,2 V,2 W", [2, 7, 4, 4, 2, 2, 1, 1]),
    ] {
        assert_eq!(tables(&changed("W", lines)).terms(), terms, "{lines}");
    }
    for (lines, line) in [
        ("W W", 3),
        ("W P,50,3,2,1", 3),
        ("W V,1", 3),
        ("P,50,3,2,1 W V,1", 4),
        ("V,1 W W", 4),
        ("W,", 2),
        ("W,1", 2),
        ("W,0", 2),
        ("WW", 2),
        ("w", 2),
        ("P,50,3,2,1 W,", 3),
    ] {
        assert_eq!(refusal(&changed("W", lines)), [1, line], "{lines}");
    }
    assert_eq!(refusal(&text(T).replace("W\n", "W\r\n")), [1, 2]);
    assert_eq!(refusal(&text(T).replace("W\n", "W \n")), [1, 2]);
    assert_eq!(refusal("F,6,9,1,2\nW"), [1, 2]);
    assert_eq!(refusal("F,6,9,1,2\nW\n"), [1, 3]);
    assert_eq!(refusal(&text(&format!("W {T}"))), [1, 1]);
    for (line, number) in [("N,1,4,2,900", 4), ("E,0,1", 9), ("S,0,0", 18), ("T,0,3,9", 20)] {
        assert_eq!(refusal(&changed(line, &format!("W {line}"))), [1, number], "{line}");
    }
    assert_eq!(refusal(&text(&format!("{T} W"))), [1, 22]);
}

#[test]
fn n_lines_have_a_fourth_number() {
    for delay in ["0", "1", "999", "1000"] {
        let job = tables(&changed("N,1,4,2,900", &format!("N,1,4,2,{delay}")));
        assert_eq!(job.delay[1].to_string(), delay);
    }
    for line in ["N,1,4,2", "N,1,4,2,", "N,1,4,2,9,9", "N,1,4,2,09", "N,1,4,2,0000009", "N,1,4,2,-9"] {
        assert_eq!(refusal(&changed("N,1,4,2,900", line)), [1, 4], "{line}");
    }
    for delay in ["1001", "65536", "66536", "999999"] {
        assert_eq!(refusal(&changed("N,1,4,2,900", &format!("N,1,4,2,{delay}"))), [2, 4], "{delay}");
    }
    // 2 before 3.
    assert_eq!(refusal(&changed("N,1,4,2,900", "N,2,4,2,900")), [3, 4]);
    assert_eq!(refusal(&changed("N,1,4,2,900", "N,2,4,2,1001")), [2, 4]);
    // Without the W line there is none.
    assert_eq!(refusal(&changed("W ", "")), [1, 2]);
    assert_eq!(refusal(&text(&B.replacen("N,1,0,1", "N,1,0,1,0", 1))), [1, 3]);
}

#[test]
fn t_lines_have_a_third_number() {
    for criticality in ["0", "1", "8", "9"] {
        let job = tables(&changed("T,0,3,9", &format!("T,0,3,{criticality}")));
        assert_eq!(job.criticality[1].to_string(), criticality);
    }
    for line in ["T,0,3", "T,0,3,", "T,0,3,9,9", "T,0,3,09", "T,0,3,0000009", "T,0,3,+9"] {
        assert_eq!(refusal(&changed("T,0,3,9", line)), [1, 20], "{line}");
    }
    for criticality in ["10", "19", "256", "257", "999999"] {
        assert_eq!(refusal(&changed("T,0,3,9", &format!("T,0,3,{criticality}"))), [2, 20], "{criticality}");
    }
    // 2 before 3.
    assert_eq!(refusal(&changed("T,0,3,9", "T,0,5,9")), [3, 20]);
    assert_eq!(refusal(&changed("T,0,3,9", "T,0,5,10")), [2, 20]);
    // S lines stay as they are, and so do T lines without the W line.
    assert_eq!(refusal(&changed("S,0,0", "S,0,0,0")), [1, 18]);
    assert_eq!(refusal(&text(&B.replacen("T,0,4", "T,0,4,0", 1))), [1, 15]);
}

#[test]
fn tables_9_and_10_too_short() {
    let enough = [6, 6, 7, 9, 1, 2, 3, 6, 3];
    assert_eq!(read_into(text(T).as_bytes(), &mut Job::unread(enough)).refusal, [0; 0]);
    for (short, table) in
        [(&[7][..], 9), (&[8], 10), (&[7, 8], 9), (&[6, 7], 7), (&[6, 8], 7), (&[0, 8], 1), (&[5, 7], 6)]
    {
        let mut lengths = enough;
        short.iter().for_each(|&table| lengths[table] -= 1);
        let mut t = Job::unread(lengths);
        assert_eq!(read_into(text(T).as_bytes(), &mut t), answer(&[4, table], &[0; 12]), "{short:?}");
        assert_eq!(t, Job::unread(lengths));
    }
    // An untimed text asks nothing of them, and writes nothing there.
    for lengths in [[9, 9, 9, 9, 9, 9, 9, 0, 0], [9; 9]] {
        let mut t = Job::unread(lengths);
        assert_eq!(read_into(text(B).as_bytes(), &mut t).refusal, [0; 0]);
        let before = Job::unread(lengths);
        assert_eq!((t.delay, t.criticality), (before.delay, before.criticality));
    }
}

/// Routes T after a change, which is refused, and resumes it too; nothing may change.
fn broken(change: impl Fn(&mut Job)) -> Vec<u64> {
    let mut t = tables(&text(T));
    change(&mut t);
    let (mut work, mut log) = (vec![9; 48], vec![9; 40]);
    let got = route_with(&t, &mut work, &mut log);
    assert_eq!(resume_with(&t, 9, &mut work, &mut log), got);
    assert_eq!((work, log), (vec![9; 48], vec![9; 40]));
    assert_eq!(got.numbers, [0; 3]);
    got.refusal
}

#[test]
fn tables_9_and_10_that_break_their_rule() {
    assert_eq!(broken(|t| t.delay.clear()), [5, 9]);
    assert_eq!(broken(|t| t.delay.push(0)), [5, 9]);
    assert_eq!(broken(|t| t.delay.truncate(5)), [5, 9]);
    assert_eq!(broken(|t| t.delay[5] = 1_001), [5, 9]);
    assert_eq!(broken(|t| t.delay[0] = u16::MAX), [5, 9]);
    assert_eq!(broken(|t| t.criticality.clear()), [5, 10]);
    assert_eq!(broken(|t| t.criticality.push(0)), [5, 10]);
    assert_eq!(broken(|t| t.criticality.truncate(2)), [5, 10]);
    assert_eq!(broken(|t| t.criticality[2] = 10), [5, 10]);
    assert_eq!(broken(|t| t.criticality[0] = u8::MAX), [5, 10]);
    // The lowest table, and the terms are table 8.
    assert_eq!(broken(|t| (t.delay[0], t.criticality[0]) = (1_001, 10)), [5, 9]);
    assert_eq!(broken(|t| (t.delay[0], t.limit) = (1_001, 0)), [5, 8]);
    assert_eq!(broken(|t| (t.criticality[0], t.until) = (10, 0)), [5, 8]);
    assert_eq!(broken(|t| (t.delay[0], t.sink[0]) = (1_001, 2)), [5, 7]);
    // Any number but 0 says that the job is timed.
    for timed in [1, 2, 256, 1 << 16, u32::MAX] {
        assert_eq!(broken(|t| (t.delay[0], t.timed) = (1_001, timed)), [5, 9]);
    }
}

/// What an untimed call is lent as tables 9 and 10 is of no account.
#[test]
fn an_untimed_job_has_neither() {
    let plain = untimed(&tables(&text(TWO)));
    let routed_plain = routed(&plain, 60);
    assert_eq!(routed_plain.0.refusal, [0; 0]);
    for (delay, criticality) in
        [(vec![0; 7], vec![0; 3]), (vec![u16::MAX; 9], vec![255; 2]), (vec![1], vec![])]
    {
        let lent = Job { delay, criticality, ..plain.clone() };
        assert_eq!(routed(&lent, 60), routed_plain);
        assert_eq!(resumed(&lent, &routed_plain.1[..26]), resumed(&plain, &routed_plain.1[..26]));
    }
}

#[test]
fn the_price_buys_delay() {
    // 3 x 400 x 100 and 7 x 2000; 3 x 20 x 150 x 10; 9 x 1000 x 100 and 1900.
    assert_eq!(timed_price(4, 0, 0, 1, 1, 400, 3), answer(&[], &[134_000]));
    assert_eq!(timed_price(0, 50, 1, 1, 3, 1_000, 0), answer(&[], &[90_000]));
    assert_eq!(timed_price(3, 0, 511, 1, 1, 1_000, 9), answer(&[], &[901_900]));
    // The largest: 10 x 101179 x 1000 x 33488485.
    assert_eq!(timed_price(53, 65_535, 511, 1, 101_179, 1_000, 0), answer(&[], &[33_883_314_238_150_000]));
}

#[test]
fn delay_and_criticality_follow_history() {
    let bad = [54, 65_536, 512, 0, 0, 1_001, 10];
    let good = [53, 65_535, 511, 255, 101_179, 1_000, 9];
    for first in 0..7 {
        let mut n = bad;
        n[..first].copy_from_slice(&good[..first]);
        let got = timed_price(n[0], n[1], n[2], n[3], n[4], n[5], n[6]);
        assert_eq!(got, answer(&[13, first as u64], &[0]));
    }
    assert_eq!(timed_price(4, 0, 0, 1, 1, u32::MAX, 0).refusal, [13, 5]);
    assert_eq!(timed_price(4, 0, 0, 1, 1, 0, u32::MAX).refusal, [13, 6]);
    assert_eq!(timed_price(4, 0, 0, 1, 101_180, 0, 0).refusal, [13, 4]);
}

#[test]
fn sinks_go_by_falling_criticality() {
    let (got, log) = routed(&tables(&text(T)), 26);
    assert_eq!(got, answer(&[], &[1, 3, 26]));
    // By 9: wire 2 is 9 x 10 x 100 + 4000, sink 3 2000. Wire 1 is 810000 + 2000, sink 4 4500 + 1900. By 2: sink 5 is 200000 + 8 x 2000.
    let expected =
        [(1, 0, 15_000, vec![0, 2, 3]), (1, 0, 818_400, vec![0, 1, 4]), (1, 0, 216_000, vec![1, 5])];
    assert_eq!(turns(&log), expected);
    // The other one of criticality 9 listed first: it has the first turn, though it is far dearer.
    let (got, log) = routed(&tables(&changed("T,0,3,9 T,0,4,9", "T,0,4,9 T,0,3,9")), 25);
    assert_eq!(got, answer(&[], &[1, 3, 25]));
    let expected = [(1, 0, 818_400, vec![0, 1, 4]), (1, 0, 2_000, vec![1, 3]), (1, 0, 216_000, vec![1, 5])];
    assert_eq!(turns(&log), expected);
    // The same job untimed goes by distance.
    let (got, log) = routed(&untimed(&tables(&text(T))), 25);
    assert_eq!(got, answer(&[], &[1, 3, 25]));
    let expected = [(1, 0, 3_900, vec![0, 1, 4]), (1, 0, 2_000, vec![1, 5]), (1, 0, 2_000, vec![1, 3])];
    assert_eq!(turns(&log), expected);
}

#[test]
fn criticality_0_is_ten_times_the_congestion_price() {
    let job = tables(&text(B));
    let (got, log) = routed(&job.timed(&[1_000; 6], &[0; 2]), 36);
    assert_eq!(got, answer(&[], &[2, 4, 36]));
    let (first, second) = ([0, 2, 4].to_vec(), [0, 3, 4].to_vec());
    let own = vec![1, 2, 5];
    let expected =
        [(1, 0, 40_000, first), (1, 1, 40_000, own.clone()), (2, 0, 60_000, second), (2, 1, 60_000, own)];
    assert_eq!(turns(&log), expected);
}

/// Net 0 of job B keeps wire 2 though it is crowded, for wire 3 has delay.
#[test]
fn a_critical_sink_stays_on_a_crowded_wire() {
    let (got, log) = routed(&tables(&text(B)).timed(&[0, 0, 0, 100, 0, 0], &[9, 0]), 36);
    assert_eq!(got, answer(&[9, 2, 1], &[2, 4, 36]));
    // Wire 2 has history 2 and the other net: 6000. For net 1 ten times that.
    let second = [(2, 0, 8_000, vec![0, 2, 4]), (2, 1, 80_000, vec![1, 2, 5])];
    assert_eq!(turns(&log)[2..], second);
}

#[test]
fn a_sink_already_in_the_tree_makes_no_turn() {
    let job = tables(&text("F,3,2,1,1 W N,0,0,1,0 N,1,1,1,10 N,2,3,1,20 E,0,1 E,1,2 S,0,0 T,0,1,0 T,0,2,5"));
    // 5 x 10 x 100 + 5 x 2000, and 5 x 20 x 100 + 5 x 1900.
    let (got, log) = routed(&job, 9);
    assert_eq!(got, answer(&[], &[1, 1, 9]));
    assert_eq!(turns(&log), [(1, 0, 34_500, vec![0, 1, 2])]);
    assert_eq!(written(&job.source, &log), text("R,1,1 B,0,0,1 B,0,1,2"));
    assert_eq!(routed(&untimed(&job), 20).0, answer(&[], &[1, 2, 16]));
}

#[test]
fn the_first_listing_s_criticality_counts() {
    let nets = |first: u8, second: u8| {
        let lines = "F,4,3,2,1 W N,0,0,1,0 N,1,4,1,0 N,2,1,1,0 N,3,1,1,7 E,0,1 E,1,2 E,1,3";
        let (got, log) =
            routed(&tables(&text(&format!("{lines} S,0,0 T,0,3,{first} S,1,0 T,1,2,5 T,1,3,{second}"))), 17);
        assert_eq!(got, answer(&[], &[1, 2, 17]));
        turns(&log)
    };
    // 2 has 5, and 3 comes after it by 1, or before it by 9.
    let late = [(1, 0, 20_000, vec![0, 1, 2]), (1, 0, 18_700, vec![1, 3])];
    let early = [(1, 0, 2_000 + 8_300, vec![0, 1, 3]), (1, 0, 10_000, vec![1, 2])];
    for second in [0, 1, 9] {
        assert_eq!(nets(1, second), late);
        assert_eq!(nets(9, second), early);
    }
}

#[test]
fn unreachable_in_listed_order() {
    let lines = "F,5,2,1,9 W N,0,0,1,0 N,1,4,1,0 N,2,1,1,0 N,3,1,1,0 N,4,1,1,0 E,0,1 E,1,2";
    let job = tables(&text(&format!("{lines} S,0,0 T,0,2,5 T,0,3,0 T,0,4,9")));
    let (got, log) = routed(&job, 9);
    assert_eq!((got, log), (answer(&[7, 0, 1], &[0; 3]), vec![MARK; 9]));
}

/// A record of a path that ends in its sink.
fn record(iteration: u32, net: u32, cost: u32, path: &[u32]) -> Vec<u32> {
    let head = [iteration, net, path[path.len() - 1], cost, 0, path.len() as u32];
    [&head, path].concat()
}

/// Goes on from a log in a slice of 100 words.
fn resumed(job: &Job, lent: &[u32]) -> (Answer, Vec<u32>) {
    let mut log = lent.to_vec();
    log.resize(100, MARK);
    let got = zeroing(job, |work| resume_with(job, lent.len() as u64, work, &mut log));
    (got, log)
}

/// Goes on from a log of TWO, which is turned away.
fn word(records: &[Vec<u32>]) -> u64 {
    let lent = records.concat();
    let (got, log) = resumed(&tables(&text(TWO)), &lent);
    assert_eq!(log[..lent.len()], lent);
    assert_eq!(got.numbers, [0; 3]);
    let [14, word] = got.refusal[..] else { panic!("{:?}", got.refusal) };
    word
}

/// The turns of TWO's first iteration. By 8: wire 2 is 800 + 4000, sink 5 1600 + 4000. By 1: sink 4 is 9 x 2000. By 0: ten times.
fn first_iteration() -> [Vec<u32>; 3] {
    [record(1, 0, 10_400, &[0, 2, 5]), record(1, 0, 18_000, &[2, 4]), record(1, 1, 40_000, &[1, 2, 6])]
}

/// Those of its second: net 0 leaves wire 2, which is 800 + 2 x 6000 to it, for wire 3, 2 x 4000. To net 1 wire 2 is 10 x 4000.
fn second_iteration() -> [(u32, u32, u32, Vec<u32>); 3] {
    [(2, 0, 13_600, vec![0, 3, 5]), (2, 0, 18_000, vec![3, 4]), (2, 1, 60_000, vec![1, 2, 6])]
}

#[test]
fn a_timed_job_goes_on() {
    let job = tables(&text(TWO));
    let lent = first_iteration().concat();
    let (got, log) = resumed(&job, &lent);
    assert_eq!(got, answer(&[], &[2, 6, 52]));
    assert_eq!(log[..26], lent);
    assert_eq!(turns(&log[26..52]), second_iteration());
    assert_eq!(routed(&job, 100), (got, log));
}

#[test]
fn a_resumed_record_joins_the_sink_whose_turn_it_is() {
    let [one, two, three] = first_iteration();
    // Sink 4 before sink 5, at the prices of either and at the untimed ones.
    for cost in [36_100, 8_800, 4_000] {
        assert_eq!(word(&[record(1, 0, cost, &[0, 2, 4]), one.clone()]), 0);
    }
    // The cost is by that sink's criticality.
    for cost in [4_000, 36_300, 40_000, 10_399, 10_401] {
        assert_eq!(word(&[record(1, 0, cost, &[0, 2, 5]), two.clone(), three.clone()]), 0);
    }
    assert_eq!(word(&[one.clone(), record(1, 0, 4_000, &[2, 4]), three.clone()]), 9);
    // Neither the cheapest path nor ties are asked.
    let lent = [record(1, 0, 13_600, &[0, 3, 5]), record(1, 0, 18_000, &[5, 4]), three.clone()];
    assert_eq!(word(&lent), 26);
    let lent = [one, record(1, 0, 18_000, &[5, 4]), three].concat();
    assert_eq!(resumed(&tables(&text(TWO)), &lent).0, answer(&[], &[2, 6, 52]));
}

#[test]
fn a_resumed_path_may_pass_other_unjoined_sinks() {
    let [_, two, three] = first_iteration();
    // By 8: sink 4 is 2 x 2000.
    let passing = record(1, 0, 14_400, &[0, 2, 4, 5]);
    let (got, log) = resumed(&tables(&text(TWO)), &[&passing[..], &three].concat());
    assert_eq!(got, answer(&[], &[2, 5, 45]));
    assert_eq!(turns(&log[19..45]), second_iteration());
    // Sink 4 is joined, without a turn.
    assert_eq!(word(&[passing, two, three]), 10);
    // In an untimed job no other unjoined sink is passed.
    let (got, _) = resumed(&untimed(&tables(&text(TWO))), &record(1, 0, 6_000, &[0, 2, 4, 5]));
    assert_eq!(got.refusal, [14, 0]);
}

/// The text of a timed line of so many nodes, one net from its start to its end.
fn line(nodes: usize, limit: u32) -> String {
    let last = nodes - 1;
    let mut lines = format!("F,{nodes},{last},1,{limit} W N,0,0,1,0 ");
    (1..last).for_each(|node| lines += &format!("N,{node},4,1,1 "));
    lines += &format!("N,{last},1,1,1 ");
    (0..last).for_each(|node| lines += &format!("E,{node},{} ", node + 1));
    text(&format!("{lines}S,0,0 T,0,{last},1"))
}

/// Tables long enough for lines.
fn long_tables(text: &str) -> (Answer, Job) {
    let mut t = Job::unread([4_097; 9]);
    let got = read_into(text.as_bytes(), &mut t);
    (got, t)
}

/// The tables of a line from kind 2 to kind 3, with such delays and criticality.
fn line_tables(nodes: usize, limit: u32) -> Job {
    Job { limit, ..jobs::line(nodes).timed(&vec![1; nodes], &[1]) }
}

#[test]
fn at_most_1024_nodes_and_a_limit_of_40_in_a_text() {
    for (nodes, limit) in [(3, 1), (3, 40), (1_024, 40)] {
        let (got, t) = long_tables(&line(nodes, limit));
        assert_eq!((got.refusal, got.numbers[4], t.delay[1], t.criticality[0]), (vec![], limit.into(), 1, 1));
    }
    for (nodes, limit) in [(1_025, 40), (1_024, 41), (3, 41), (3, 100), (4_096, 1), (4_096, 100)] {
        let (got, t) = long_tables(&line(nodes, limit));
        assert_eq!(got, answer(&[15, nodes as u64, limit.into()], &[0; 12]));
        assert_eq!(t, Job::unread([4_097; 9]));
    }
    // After 1, 2, 3 and 4.
    assert_eq!(long_tables(line(1_025, 41).trim_end()).0.refusal, [1, 2_053]);
    assert_eq!(long_tables(&line(3, 101)).0.refusal, [2, 1]);
    let mut short = Job::unread([9, 9, 9, 9, 9, 9, 9, 2, 9]);
    assert_eq!(read_into(line(3, 41).as_bytes(), &mut short).refusal, [4, 9]);
    short = Job::unread([9, 9, 9, 9, 9, 9, 9, 9, 0]);
    assert_eq!(read_into(line(3, 41).as_bytes(), &mut short).refusal, [4, 10]);
}

/// 15 after 5, before 6, 7 and 14; nothing is touched.
#[test]
fn at_most_1024_nodes_and_a_limit_of_40_in_a_call() {
    let refusal = |t: &Job| {
        let (mut work, mut log) = (vec![9; 8], vec![9; 7]);
        let got = route_with(t, &mut work, &mut log);
        assert_eq!(resume_with(t, 99, &mut work, &mut log), got);
        assert_eq!((&got.numbers[..], work, log), (&[0; 3][..], vec![9; 8], vec![9; 7]));
        got.refusal
    };
    assert_eq!(refusal(&line_tables(1_024, 40)), [6, 8_192]);
    assert_eq!(refusal(&line_tables(1_025, 40)), [15, 1_025, 40]);
    assert_eq!(refusal(&line_tables(1_024, 41)), [15, 1_024, 41]);
    assert_eq!(refusal(&line_tables(4_096, 100)), [15, 4_096, 100]);
    assert_eq!(refusal(&line_tables(3, 101)), [5, 8]);
    assert_eq!(refusal(&Job { timed: 0, ..line_tables(1_025, 100) }), [6, 8_200]);
    let mut bad = line_tables(1_025, 41);
    bad.criticality[0] = 10;
    assert_eq!(refusal(&bad), [5, 10]);
    // 7 would come next.
    let mut cut = line_tables(3, 41);
    cut.edge_target[1] = 0;
    assert_eq!(refusal(&cut), [15, 3, 41]);
    assert_eq!(route_with(&Job { limit: 40, ..cut }, &mut [0; 24], &mut []).refusal, [7, 0, 0]);
}

/// The longest line: 1022 wires, each 100 + 9 x 2000, and the sink, 100 + 9 x 1900.
#[test]
fn the_longest_line_is_routed() {
    let (got, log) = routed(&line_tables(1_024, 40), 1_030);
    assert_eq!(got, answer(&[], &[1, 1, 1_030]));
    assert_eq!(log[..6], [1, 0, 1_023, 1_022 * 18_100 + 17_200, 0, 1_024]);
}

/// The timed search of job B's graph by other lists than good ones.
fn search_b(
    delay: &[u16],
    factor: u32,
    criticality: u32,
    work: &mut [u64],
    history: &[u32],
    others: &[u16],
    marks: &[u8],
) -> Answer {
    let t = tables(&text(B));
    let (kind, capacity) = (&t.kind, &t.capacity);
    let edges = (&t.first_edge, &t.edge_target);
    timed_search(kind, capacity, edges.0, edges.1, delay, factor, criticality, work, history, others, marks)
}

#[test]
fn a_timed_search_alone() {
    let mut work = vec![9; 50];
    let delay = [0, 0, 10, 0, 1_000, 0];
    let marks = [1, 0, 0, 0, 0, 0];
    let got = search_b(&delay, 50, 3, &mut work, &[2, 1, 1, 1, 1, 1], &[0, 0, 1, 0, 0, 0], &marks);
    assert_eq!(got, answer(&[], &[]));
    // Wire 2 is 3000 + 7 x 3000, wire 3 7 x 4000, sink 4 300000 + 14000, sink 5 14000.
    assert_eq!(work[..6], [0, u64::MAX, 24_000, 28_000, 338_000, 38_000]);
    assert_eq!(work[6..], [[0; 42].as_slice(), &[9, 9]].concat());
}

#[test]
fn a_timed_search_refuses() {
    let mut work = vec![9; 50];
    let (delay, history, marks) = ([0; 6], [39_859; 6], [0; 6]);
    // 5 with tables 1 to 4 and 9.
    assert_eq!(search_b(&[0; 5], 70_000, 10, &mut work[..47], &[], &[], &[]).refusal, [5, 9]);
    assert_eq!(search_b(&[0; 7], 70_000, 10, &mut work[..47], &[], &[], &[]).refusal, [5, 9]);
    assert_eq!(search_b(&[1_001; 6], 70_000, 10, &mut work[..47], &[], &[], &[]).refusal, [5, 9]);
    let got = timed_search(&[54], &[1], &[0, 0], &[], &[1_001], 0, 0, &mut work, &[1], &[0], &[0]);
    assert_eq!(got.refusal, [5, 1]);
    let got = timed_search(&[53], &[1], &[0, 1], &[0], &[1_001], 0, 0, &mut work, &[1], &[0], &[0]);
    assert_eq!(got.refusal, [5, 4]);
    // Then 6, the nodes, the factor and the criticality.
    assert_eq!(search_b(&delay, 70_000, 10, &mut work[..47], &[], &[], &[]).refusal, [6, 48]);
    for bad in [0, 39_860, 101_179, u32::MAX] {
        let history = [39_859, 39_859, 39_859, 39_859, 39_859, bad];
        assert_eq!(search_b(&delay, 70_000, 10, &mut work, &history, &[0; 6], &marks).refusal, [13, 5]);
    }
    assert_eq!(search_b(&delay, 0, 0, &mut work, &history[..4], &[0; 6], &marks).refusal, [13, 4]);
    assert_eq!(search_b(&delay, 65_536, 10, &mut work, &history, &[0; 6], &marks).refusal, [13, 6]);
    for criticality in [10, 256, u32::MAX] {
        let got = search_b(&delay, 65_535, criticality, &mut work, &history, &[0; 6], &marks);
        assert_eq!(got, answer(&[13, 7], &[]));
    }
    assert_eq!(work, [9; 50]);
    assert_eq!(search_b(&delay, 65_535, 9, &mut work, &history, &[0; 6], &marks).refusal, [0; 0]);
}

/// A chain of so many nodes, the first in the tree, at the largest prices.
fn chain(nodes: usize, criticality: u32, work: &mut [u64]) -> Answer {
    let first_edge: Vec<u32> = (0..=nodes).map(|v| v.min(nodes - 1) as u32).collect();
    let edge_target: Vec<u16> = (1..nodes as u16).collect();
    let mut marks = vec![0; nodes];
    marks[0] = 1;
    timed_search(
        &vec![53; nodes],
        &vec![1; nodes],
        &first_edge,
        &edge_target,
        &vec![1_000; nodes],
        65_535,
        criticality,
        work,
        &vec![39_859; nodes],
        &vec![511; nodes],
        &marks,
    )
}

#[test]
fn a_timed_search_of_many_nodes() {
    let mut work = vec![9; 8 * 1_024];
    for nodes in [1_025, 4_096] {
        assert_eq!(chain(nodes, 10, &mut work[..7]), answer(&[15, nodes as u64, 0], &[]));
    }
    assert!(work.iter().all(|&entry| entry == 9));
    // 5 comes first.
    let got = timed_search(&[4; 1_025], &[1; 1_025], &[0; 1_026], &[], &[], 0, 0, &mut work, &[], &[], &[]);
    assert_eq!(got.refusal, [5, 9]);
    // The largest distance, 1023 x 10 x 39859 x 33488485000, still has 64 bits.
    assert_eq!(chain(1_024, 0, &mut work), answer(&[], &[]));
    assert_eq!(work[1_023], 1_023 * 10 * 39_859 * 33_488_485_000);
    assert_eq!(chain(1_024, 9, &mut work), answer(&[], &[]));
    assert_eq!(work[1_023], 1_023 * (900_000 + 39_859 * 33_488_485_000));
}
