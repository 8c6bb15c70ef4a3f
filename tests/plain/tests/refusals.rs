//! Refusals beside the samples, and damaged inputs, which must not panic.

mod common;
use common::*;
use job::Job;
use plain::{price, search, write};

fn changed(from: &str, to: &str) -> Vec<u64> {
    assert!(B.contains(from));
    refusal(&text(&B.replace(from, to)))
}

#[test]
fn texts_of_wrong_shape() {
    assert_eq!(refusal(text(B).trim_end()), [1, 17]);
    assert_eq!(refusal(&(text(B) + "\n")), [1, 18]);
    assert_eq!(refusal(&(text(B) + "S,2,0\n")), [1, 18]);
    assert_eq!(refusal(&(text(B) + "S,9999999,0\n")), [1, 18]);
    assert_eq!(refusal(&(text(B) + "T")), [1, 18]);
    assert_eq!(refusal(&text(B)[..text(B).len() - 6]), [1, 17]);
    assert_eq!(changed("S,1,1 T,1,5", ""), [1, 16]);
    assert_eq!(changed("T,0,4", ""), [1, 15]);
    assert_eq!(changed("N,1,0,1", "N,1,00,1"), [1, 3]);
    assert_eq!(changed("N,1,0,1", "N,1,0000001,1"), [1, 3]);
    assert_eq!(changed("N,1,0,1", "N,1,0,1,"), [1, 3]);
    assert_eq!(changed("N,1,0,1", "N,1,,1"), [1, 3]);
    assert_eq!(changed("N,1,0,1", "NN,1,0,1"), [1, 3]);
    assert_eq!(changed("N,1,0,1", "N,1,+0,1"), [1, 3]);
    assert_eq!(changed("F,6,6,2,2", "F,6,7,2,2"), [1, 14]);
    assert_eq!(changed("F,6,6,2,2", "F,6,5,2,2"), [1, 13]);
    assert_eq!(changed("F,6,6,2,2", "F,6,6,3,2"), [1, 18]);
    assert_eq!(changed("F,6,6,2,2", "F,6,6,1,2"), [1, 16]);
}

#[test]
fn texts_beyond_bounds() {
    for f in ["F,0,6,2,2", "F,4097,6,2,2", "F,6,32769,2,2", "F,6,6,0,2", "F,6,6,513,2", "F,6,6,2,0"] {
        assert_eq!(changed("F,6,6,2,2", f), [2, 1]);
    }
    assert_eq!(changed("N,1,0,1", "N,6,0,1"), [2, 3]);
    assert_eq!(changed("N,1,0,1", "N,0,0,256"), [2, 3]);
    assert_eq!(changed("E,0,3", "E,0,6"), [2, 9]);
    assert_eq!(changed("E,0,3", "E,6,6"), [2, 9]);
    assert_eq!(changed("S,1,1", "S,2,1"), [2, 16]);
    assert_eq!(changed("T,1,5", "T,2,5"), [2, 17]);
    assert_eq!(changed("T,1,5", "T,0,6"), [2, 17]);
}

#[test]
fn texts_of_wrong_order() {
    assert_eq!(changed("N,1,0,1", "N,2,0,1"), [3, 3]);
    assert_eq!(changed("E,0,3", "E,0,2"), [3, 9]);
    assert_eq!(changed("E,0,3", "E,0,0"), [3, 9]);
    assert_eq!(changed("E,2,4", "E,1,0"), [3, 11]);
    assert_eq!(changed("S,1,1", "S,0,1"), [3, 16]);
    assert_eq!(changed("T,1,5", "T,0,5"), [3, 17]);
    assert_eq!(changed("T,1,5", "T,1,1"), [3, 17]);
    assert_eq!(changed("T,1,5", "T,1,5 T,1,5"), [3, 18]);
}

#[test]
fn the_4097th_sink() {
    let mut job = String::from("F,4096,0,2,1\n");
    for v in 0..4096 {
        job += &format!("N,{v},{},1\n", u8::from(v > 0));
    }
    job += "S,0,0\n";
    for v in 1..4096 {
        job += &format!("T,0,{v}\n");
    }
    job += "S,1,0\nT,1,1\n";
    let mut t = Job::unread([4096, 4096, 4097, 0, 2, 3, 4096, 0, 0]);
    assert_eq!(read_into(job.as_bytes(), &mut t).numbers, [4096, 0, 2, 4096, 1, 50, 3, 2, 1, 1, 1, 0]);
    assert_eq!(refusal(&(job.clone() + "T,1,4096\n")), [2, 8196]);
    assert_eq!(refusal(&(job + "T,1,2\n")), [3, 8196]);
}

#[test]
fn pins_of_other_kinds_in_a_text() {
    for kind in 0..54 {
        let source = text(&B.replace("N,1,0,1", &format!("N,1,{kind},1")));
        let sink = text(&B.replace("N,4,1,1", &format!("N,4,{kind},1")));
        for (lines, pins, line) in [(source, [0, 2], 16), (sink, [1, 3], 15)] {
            if pins.contains(&kind) {
                assert_eq!(tables(&lines).source, [0, 1], "{lines}");
            } else {
                assert_eq!(refusal(&lines), [3, line], "{lines}");
            }
        }
    }
    // The first line counts, and in a line 1 before 2 before 3.
    assert_eq!(changed("S,0,0 T,0,4", "S,0,4 T,0,0"), [3, 14]);
    assert_eq!(changed("S,0,0 T,0,4", "S,0,2, T,0,0"), [1, 14]);
    assert_eq!(changed("S,0,0 T,0,4", "S,2,2 T,0,0"), [2, 14]);
    assert_eq!(changed("T,1,5", "T,1,2,"), [1, 17]);
    assert_eq!(changed("T,1,5", "T,2,2"), [2, 17]);
    assert_eq!(changed("T,1,5", "T,1,5 T,1,0"), [3, 18]);
    assert_eq!(changed("S,1,1", "S,1,3"), [3, 16]);
    assert_eq!(refusal(text(&B.replace("T,1,5", "T,1,3")).trim_end()), [1, 17]);
}

#[test]
fn tables_too_short() {
    let enough = [6, 6, 7, 6, 2, 3, 2, 0, 0];
    assert!(read_into(text(B).as_bytes(), &mut Job::unread(enough)).refusal.is_empty());
    for table in 0..7 {
        let mut sizes = enough;
        sizes[table] -= 1;
        sizes[6] = 1;
        let mut t = Job::unread(sizes);
        assert_eq!(read_into(text(B).as_bytes(), &mut t).refusal, [4, table as u64 + 1]);
        assert_eq!(t, Job::unread(sizes));
    }
}

/// Routes changed tables of job B; nothing may change.
fn broken(change: fn(&mut Job)) -> Vec<u64> {
    let mut t = tables(&text(B));
    change(&mut t);
    let (mut work, mut log) = (vec![9; 48], vec![9; 40]);
    let answer = route_with(&t, &mut work, &mut log);
    assert_eq!((work, log), (vec![9; 48], vec![9; 40]));
    assert_eq!(answer.numbers, [0; 3]);
    answer.refusal
}

#[test]
fn broken_tables() {
    assert_eq!(broken(|t| t.kind.clear()), [5, 1]);
    assert_eq!(broken(|t| t.kind[5] = 54), [5, 1]);
    assert_eq!(broken(|t| t.kind.push(0)), [5, 2]);
    assert_eq!(broken(|t| t.capacity[5] = 0), [5, 2]);
    assert_eq!(broken(|t| t.first_edge[0] = 1), [5, 3]);
    assert_eq!(broken(|t| t.first_edge[2] = 1), [5, 3]);
    assert_eq!(broken(|t| t.first_edge.clear()), [5, 3]);
    assert_eq!(broken(|t| t.edge_target.clear()), [5, 3]);
    assert_eq!(broken(|t| t.edge_target.push(0)), [5, 3]);
    assert_eq!(broken(|t| t.edge_target[1] = 2), [5, 4]);
    assert_eq!(broken(|t| t.edge_target[1] = 6), [5, 4]);
    assert_eq!(broken(|t| t.edge_target[0] = 0), [5, 4]);
    assert_eq!(broken(|t| t.source[1] = 6), [5, 5]);
    assert_eq!(broken(|t| t.source.clear()), [5, 5]);
    assert_eq!(broken(|t| t.source.push(0)), [5, 6]);
    assert_eq!(broken(|t| t.first_sink[1] = 0), [5, 6]);
    assert_eq!(broken(|t| t.sink.push(0)), [5, 6]);
    assert_eq!(broken(|t| t.sink[1] = 1), [5, 7]);
    assert_eq!(broken(|t| t.sink[1] = 6), [5, 7]);
    assert_eq!(broken(|t| t.limit = 0), [5, 8]);
    assert_eq!(broken(|t| t.limit = 101), [5, 8]);
    let mut work = vec![9; 47];
    assert_eq!(route_with(&tables(&text(B)), &mut work, &mut []).refusal, [6, 48]);
    assert_eq!(work, [9; 47]);
}

#[test]
fn pins_of_other_kinds_in_tables() {
    for kind in 0..54 {
        for (node, pins, table) in [(0, [0, 2], 5), (1, [0, 2], 5), (4, [1, 3], 7), (5, [1, 3], 7)] {
            let mut t = tables(&text(B));
            t.kind[node] = kind;
            let refusal = route_with(&t, &mut [], &mut []).refusal;
            assert_eq!(refusal, if pins.contains(&kind) { [6, 48] } else { [5, table] }, "{kind} at {node}");
        }
    }
    assert_eq!(broken(|t| t.source[1] = 2), [5, 5]);
    assert_eq!(broken(|t| t.source[1] = 4), [5, 5]);
    assert_eq!(broken(|t| t.sink[1] = 2), [5, 7]);
    assert_eq!(broken(|t| t.sink[1] = 0), [5, 7]);
    assert_eq!(broken(|t| t.kind.swap(0, 4)), [5, 5]);
    // Table 6 comes between, tables 1 to 4 before, table 8 after.
    assert_eq!(broken(|t| (t.kind[5], t.first_sink[1]) = (4, 0)), [5, 6]);
    assert_eq!(broken(|t| (t.kind[0], t.first_sink[1]) = (4, 0)), [5, 5]);
    assert_eq!(broken(|t| (t.kind[0], t.capacity[0]) = (4, 0)), [5, 2]);
    assert_eq!(broken(|t| (t.kind[5], t.limit) = (4, 0)), [5, 7]);
}

#[test]
fn pins_of_both_kinds_are_routed() {
    let lines = B.replace("N,1,0,1", "N,1,2,1").replace("N,4,1,1", "N,4,3,1");
    let (answer, log) = routed(&tables(&text(&lines)), 36);
    assert_eq!((answer.refusal, answer.numbers), (vec![], vec![2, 4, 36]));
    // Node 4 costs 1900, node 5 2000; net 0 gives way in iteration 2.
    let costs = [3, 12, 21, 30].map(|place| log[place]);
    assert_eq!(costs, [3900, 4000, 5900, 6000]);
}

#[test]
fn prices_beyond_bounds() {
    assert_eq!(price(54, 65536, 512, 0, 0).refusal, [13, 0]);
    assert_eq!(price(53, 65536, 512, 0, 0).refusal, [13, 1]);
    assert_eq!(price(53, 65535, 512, 0, 0).refusal, [13, 2]);
    assert_eq!(price(53, 65535, 511, 256, 0).refusal, [13, 3]);
    assert_eq!(price(53, 65535, 511, 255, 101180).refusal, [13, 4]);
    assert_eq!(price(53, 65535, 511, 255, 0).numbers, [0]);
}

#[test]
fn search_alone() {
    let t = tables(&text(B));
    let call = |factor, work: &mut [u64], history: &[u32], others: &[u16], marks: &[u8]| {
        search(&t.kind, &t.capacity, &t.first_edge, &t.edge_target, factor, work, history, others, marks)
            .refusal
    };
    let mut work = vec![9; 50];
    let none: [u64; 0] = [];
    assert_eq!(call(50, &mut work[..47], &[], &[], &[]), [6, 48]);
    assert_eq!(call(70000, &mut work, &[1; 6], &[0; 6], &[0; 5]), [13, 5]);
    assert_eq!(call(70000, &mut work, &[1, 0, 1, 1], &[0; 6], &[0, 0, 2, 0, 0, 0]), [13, 1]);
    assert_eq!(call(50, &mut work, &[1; 6], &[0, 0, 0, 512, 0, 0], &[0; 6]), [13, 3]);
    assert_eq!(call(65536, &mut work, &[1; 6], &[0; 6], &[0; 6]), [13, 6]);
    assert_eq!(work, [9; 50]);
    let marks = [1, 0, 0, 0, 0, 0, 5];
    assert_eq!(call(50, &mut work, &[2, 1, 1, 1, 1, 1, 0], &[0, 0, 1, 0, 0, 0, 600], &marks), none);
    assert_eq!(work[..6], [0, u64::MAX, 3000, 4000, 5000, 5000]);
    assert_eq!(work[6..], [[0; 42].as_slice(), &[9, 9]].concat());
    assert_eq!(call(50, &mut work, &[1; 6], &[0; 6], &[0; 6]), none);
    assert_eq!(work[..6], [u64::MAX; 6]);
}

#[test]
fn unsound_logs() {
    let good = [7, 511, 9, 1, 2, 2, 4095, 9];
    let source: Vec<u16> = (0..512).collect();
    let refused = |log: &[u32]| unwritten(&source, log);
    assert_eq!(written(&source, &good), "R,7,1\nB,511,4095,9\n");
    assert_eq!(refused(&[]), [10, 0]);
    let bad = [(0, 0), (0, 101), (1, 512), (2, 8), (5, 1), (5, 3), (5, u32::MAX), (6, 4096), (7, 8)];
    for (place, word) in bad {
        let mut log = good;
        log[place] = word;
        assert_eq!(refused(&log), [10, 0]);
    }
    let mut two = [good, good].concat();
    two[8] = 8;
    assert_eq!(written(&source, &two), "R,8,2\nB,511,4095,9\n");
    two[8] = 6;
    assert_eq!(refused(&two), [10, 8]);
    for length in 9..16 {
        assert_eq!(refused(&two[..length]), [10, 8]);
    }
}

/// Damaged tables, texts and logs of pseudo-random content.
#[test]
fn nothing_panics() {
    let mut state = 1u64;
    let mut next = move |below: u64| {
        state = state.wrapping_mul(6364136223846793005).wrapping_add(1442695040888963407);
        (state >> 33) % below
    };
    let sound = tables(&text(B));
    let untimed = B.replace("F,6,6,2,2", "F,6,6,2,2 P,50,3,2,1 V,2,1");
    let timed = "F,3,2,1,9 P,50,3,2,1 V,2,1 W N,0,0,1,7 N,1,4,1,0 N,2,1,1,9 E,0,1 E,1,2 S,0,0 T,0,2,5";
    let texts = [untimed, String::from(timed)].map(|lines| text(&lines).into_bytes());
    for _ in 0..20_000 {
        let mut t = sound.clone();
        let value = [0, 1, 2, 3, 5, 6, 255, 65535][next(8) as usize];
        let place = next(9) as usize;
        if next(2) == 0 {
            t = t.timed(&[7; 6], &[3; 2]);
        }
        match next(13) {
            0 => t.kind.resize(place, value as u8),
            1 => t.capacity.resize(place, value as u8),
            2 => t.first_edge[place % 7] = value,
            3 => t.edge_target[place % 6] = value as u16,
            4 => t.source[place % 2] = value as u16,
            5 => t.first_sink[place % 3] = value,
            6 => t.sink[place % 2] = value as u16,
            7 => t.tuning.down = value,
            8 => t.rule = value,
            9 => t.until = value,
            10 => t.delay.resize(place, value as u16),
            11 => t.criticality.resize(place, value as u8),
            _ => t.limit = value,
        }
        let mut log = vec![0; next(60) as usize];
        route_with(&t, &mut vec![0; next(80) as usize], &mut log);
        if let Some(word) = log.get_mut(place) {
            *word = value;
        }
        resume_with(&t, next(40), &mut vec![0; next(80) as usize], &mut log.clone());
        write(&t.source, &log, &mut vec![0; next(80) as usize]);
        let bytes = &texts[next(2) as usize];
        let mut damaged = bytes.clone();
        for _ in 0..=next(3) {
            damaged[next(bytes.len() as u64) as usize] = b"0123456789,\nFPVWNEST\r\xff"[next(22) as usize];
        }
        damaged.truncate(bytes.len() - next(4) as usize);
        read_into(&damaged, &mut Job::unread([next(9) as usize; 9]));
    }
}
