//! The tuning of the tariff: its line, its bounds and what it moves.

mod common;
use common::*;
use job::Job;
use plain::Tuning;

#[test]
fn the_line_is_read() {
    for (line, numbers) in [
        ("", [50, 3, 2, 1]),
        ("P,50,3,2,1", [50, 3, 2, 1]),
        ("P,0,1,1,1", [0, 1, 1, 1]),
        ("P,1000,8,4,2", [1000, 8, 4, 2]),
        ("P,7,4,4,2", [7, 4, 4, 2]),
        ("P,7,8,1,1", [7, 8, 1, 1]),
    ] {
        let mut t = Job::unread([7; 9]);
        let answer = read_into(b_with(line).as_bytes(), &mut t);
        assert_eq!(answer.refusal, [0; 0]);
        assert_eq!(answer.numbers, [&[6, 6, 2, 2, 2][..], &numbers, &[1, 1, 0]].concat());
    }
}

#[test]
fn lines_of_wrong_shape_or_place() {
    for line in [
        "P",
        "P,",
        "P,50,3,2",
        "P,50,3,2,1,1",
        "P,050,3,2,1",
        "P,50,3,2,01",
        "p,50,3,2,1",
        "P,50,3,,1",
        "P,1000000,3,2,1",
    ] {
        assert_eq!(refusal(&b_with(line)), [1, 2], "{line}");
    }
    assert_eq!(refusal(&text(B).replacen("F,6,6,2,2\n", "F,6,6,2,2\nP,50,3,2,1\r\n", 1)), [1, 2]);
    assert_eq!(refusal("F,6,6,2,2\nP,50,3,2,1"), [1, 2]);
    assert_eq!(refusal("F,6,6,2,2\nP,1001,3,2,1"), [1, 2]);
    assert_eq!(refusal("F,6,6,2,2\nP,50,3,2,1\n"), [1, 3]);
    assert_eq!(refusal(&b_with("P,50,3,2,1 P,50,3,2,1")), [1, 3]);
    assert_eq!(refusal(&text(&format!("P,50,3,2,1 {B}"))), [1, 1]);
    assert_eq!(refusal(&text(&B.replace("N,1,0,1", "P,50,3,2,1 N,1,0,1"))), [1, 3]);
    assert_eq!(refusal(&text(&B.replace("E,0,2", "P,50,3,2,1 E,0,2"))), [1, 8]);
    assert_eq!(refusal(&text(&B.replace("S,0,0", "P,50,3,2,1 S,0,0"))), [1, 14]);
    assert_eq!(refusal(&text(&B.replace("T,0,4", "P,50,3,2,1 T,0,4"))), [1, 15]);
    assert_eq!(refusal(&text(&format!("{B} P,50,3,2,1"))), [1, 18]);
}

#[test]
fn lines_beyond_bounds() {
    let bad = [
        "1001,3,2,1",
        "50,1,2,1",
        "50,3,4,1",
        "50,9,2,1",
        "50,0,0,1",
        "50,3,0,1",
        "50,5,5,1",
        "50,8,5,1",
        "50,3,2,0",
        "50,3,2,3",
        "999999,3,2,1",
    ];
    for numbers in bad {
        assert_eq!(refusal(&b_with(&format!("P,{numbers}"))), [2, 2], "{numbers}");
    }
    // The F line comes first, the N line after.
    assert_eq!(refusal(&b_with("P,1001,3,2,1").replace("F,6,6,2,2", "F,0,6,2,2")), [2, 1]);
    assert_eq!(refusal(&b_with("P,1001,3,2,1").replace("N,0,0,1", "N,0,54")), [2, 2]);
    assert_eq!(refusal(&b_with("P,50,3,2,1").replace("N,0,0,1", "N,0,54,1")), [2, 3]);
}

#[test]
fn numbers_beyond_bounds_in_a_call() {
    let refused = |first, up, down, step| {
        let mut t = tables(&text(B));
        t.tuning = job::Tuning { first, up, down, step };
        let (mut work, mut log) = (vec![9; 48], vec![9; 40]);
        let answer = route_with(&t, &mut work, &mut log);
        if answer.refusal == [5, 8] {
            assert_eq!((answer.numbers, work, log), (vec![0; 3], vec![9; 48], vec![9; 40]));
            return true;
        }
        false
    };
    for first in [0, 1, 50, 1000, 1001, u32::MAX] {
        for up in [0, 1, 2, 3, 4, 5, 8, 9, u32::MAX] {
            for down in [0, 1, 2, 3, 4, 5, u32::MAX] {
                for step in [0, 1, 2, 3, u32::MAX] {
                    let sound = first <= 1000
                        && (1..=4).contains(&down)
                        && down <= up
                        && up <= 8
                        && (step == 1 || step == 2);
                    assert_eq!(refused(first, up, down, step), !sound, "{first} {up} {down} {step}");
                }
            }
        }
    }
}

#[test]
fn a_lower_table_comes_first() {
    let mut t = tables(&text(B));
    t.tuning.down = 0;
    t.sink[1] = 6;
    assert_eq!(route_with(&t, &mut [0; 48], &mut []).refusal, [5, 7]);
    t.sink[1] = 5;
    assert_eq!(route_with(&t, &mut [], &mut []).refusal, [5, 8]);
}

fn factors(first: u32, up: u32, down: u32) -> [u32; 6] {
    let tuning = Tuning { first, up, down, step: 1 };
    [1, 2, 3, 4, 5, 100].map(|iteration| tuning.factor_in(iteration))
}

#[test]
fn factors_grow_by_the_tuning() {
    assert_eq!(factors(0, 8, 1), [0; 6]);
    assert_eq!(factors(1000, 8, 1), [0, 1000, 8000, 64000, 65535, 65535]);
    assert_eq!(factors(7, 4, 4), [0, 7, 7, 7, 7, 7]);
    assert_eq!(factors(1, 4, 3), [0, 1, 1, 1, 1, 1]);
    assert_eq!(factors(10, 5, 4), [0, 10, 12, 15, 18, 65535]);
    assert_eq!(factors(10, 7, 3), [0, 10, 23, 53, 123, 65535]);
}

#[test]
fn factor_and_step_show_in_the_log() {
    // Two nets share node 2 or pass by the costly node 3.
    let lines = "F,6,7,2,5 P,10,8,3,2 N,0,0,1 N,1,0,1 N,2,4,1 N,3,15,1 N,4,1,1 N,5,1,1 \
        E,0,2 E,0,3 E,1,2 E,2,4 E,2,5 E,3,4 E,3,5 S,0,0 T,0,4 S,1,1 T,1,5";
    let (answer, log) = routed(&tables(&text(lines)), 1000);
    // Net 0 in iteration 2: history 3, factor 10, one other: 3 x 20 x 110, then the sink's 2000.
    assert_eq!(log[18..27], [2, 0, 4, 8600, 0, 3, 0, 2, 4]);
    // Iteration 3: history 5, factor 26: 5 x 20 x 126, then the sink's 2000.
    assert_eq!(log[36..45], [3, 0, 4, 14600, 0, 3, 0, 2, 4]);
    // Iteration 4: history 7, factor 69: 7 x 20 x 169 = 23660; node 3 costs 24000.
    assert_eq!(log[54..63], [4, 0, 4, 25660, 0, 3, 0, 2, 4]);
    // Iteration 5: history 9, factor 184: 9 x 20 x 284 = 51120; node 3 is cheaper.
    assert_eq!(log[72..81], [5, 0, 4, 26000, 0, 3, 0, 3, 4]);
    assert_eq!((answer.refusal, answer.numbers), (vec![], vec![5, 10, 90]));
}

#[test]
fn the_largest_history() {
    // 512 nets share a wire of capacity 1: after 99 iterations its history is 1 + 99 x 2 x 511. Their sink has room for 255.
    let wire = 512;
    let mut kind = vec![0; wire];
    kind.extend([4, 1]);
    let mut capacity = vec![1; wire];
    capacity.extend([1, 255]);
    let mut t = Job::bare(kind, capacity, 100);
    t.tuning = job::Tuning { first: 0, up: 1, down: 1, step: 2 };
    for _ in 0..wire {
        t.add_row(&[wire as u16]);
    }
    t.add_row(&[wire as u16 + 1]);
    t.add_row(&[]);
    for source in 0..wire as u16 {
        t.add_net(source, &[wire as u16 + 1]);
    }
    let (answer, log) = routed(&t, 100 * 512 * 9);
    assert_eq!(answer.refusal, [9, 100, 2]);
    let last = &log[log.len() - 9..];
    let cost = 101_179 * 2_000 + (1 + 99 * 2 * 257) * 2_000;
    assert_eq!(last, [100, 511, 513, cost, 0, 3, 511, 512, 513]);
}
