//! The sample jobs of 01-scope.md.

mod common;
use common::*;
use job::Job;
use plain::{price, Answer, Tuning};

const B_LOG: [u32; 36] = [
    1, 0, 4, 4000, 0, 3, 0, 2, 4, 1, 1, 5, 4000, 0, 3, 1, 2, 5, //
    2, 0, 4, 6000, 0, 3, 0, 3, 4, 2, 1, 5, 6000, 0, 3, 1, 2, 5,
];
const C: &str = "F,4,3,1,1 N,0,0,1 N,1,4,1 N,2,1,1 N,3,1,1 E,0,1 E,1,2 E,1,3 S,0,0 T,0,3 T,0,2";

fn answer(refusal: &[u64], numbers: &[u64]) -> Answer {
    Answer { refusal: refusal.to_vec(), numbers: numbers.to_vec() }
}

#[test]
fn job_b_is_read() {
    let mut t = Job::unread([7; 9]);
    let got = read_into(text(B).as_bytes(), &mut t);
    assert_eq!(got, answer(&[], &[6, 6, 2, 2, 2, 50, 3, 2, 1, 1, 1, 0]));
    // Entries past those needed stay as they were.
    let mut wanted = Job::unread([7; 9]);
    wanted.kind[..6].copy_from_slice(&[0, 0, 4, 5, 1, 1]);
    wanted.capacity[..6].fill(1);
    wanted.first_edge.copy_from_slice(&[0, 2, 3, 5, 6, 6, 6]);
    wanted.edge_target[..6].copy_from_slice(&[2, 3, 2, 4, 5, 4]);
    wanted.source[..2].copy_from_slice(&[0, 1]);
    wanted.first_sink[..3].copy_from_slice(&[0, 1, 2]);
    wanted.sink[..2].copy_from_slice(&[4, 5]);
    assert_eq!(t, wanted);
}

#[test]
fn job_b() {
    let t = tables(&text(B));
    for words in [36, 40] {
        let (got, log) = routed(&t, words);
        assert_eq!(got, answer(&[], &[2, 4, 36]));
        assert_eq!(log[..36], B_LOG);
        assert!(log[36..].iter().all(|&w| w == MARK));
    }
    assert_eq!(written(&t.source, &B_LOG), text("R,2,4 B,0,0,3 B,0,3,4 B,1,1,2 B,1,2,5"));
}

#[test]
fn job_b_with_limit_1() {
    let t = tables(&text(&B.replace("F,6,6,2,2", "F,6,6,2,1")));
    let (got, log) = routed(&t, 40);
    assert_eq!(got, answer(&[9, 1, 1], &[1, 2, 18]));
    assert_eq!(log[..18], B_LOG[..18]);
    assert!(log[18..].iter().all(|&w| w == MARK));
}

#[test]
fn job_b_with_short_logs() {
    let t = tables(&text(B));
    let (got, log) = routed(&t, 35);
    assert_eq!(got, answer(&[8, 2, 3], &[2, 3, 27]));
    assert_eq!(log[..27], B_LOG[..27]);
    assert!(log[27..].iter().all(|&w| w == MARK));
    assert_eq!(routed(&t, 18).0, answer(&[8, 2, 2], &[2, 2, 18]));
    assert_eq!(routed(&t, 8).0, answer(&[8, 1, 0], &[1, 0, 0]));
    assert_eq!(routed(&t, 0).0, answer(&[8, 1, 0], &[1, 0, 0]));
}

#[test]
fn job_c() {
    let (got, log) = routed(&tables(&text(C)), 17);
    assert_eq!(got, answer(&[], &[1, 2, 17]));
    assert_eq!(log, [1, 0, 3, 4000, 0, 3, 0, 1, 3, 1, 0, 2, 2000, 0, 2, 1, 2]);
}

#[test]
fn job_c_without_an_edge() {
    let lines = C.replace("F,4,3,", "F,4,2,").replace("E,1,3 ", "");
    let (got, log) = routed(&tables(&text(&lines)), 17);
    assert_eq!(got, answer(&[7, 0, 0], &[0, 0, 0]));
    assert!(log.iter().all(|&w| w == MARK));
}

#[test]
fn equal_paths_take_the_lowest_node() {
    let lines = "F,4,4,1,1 N,0,0,1 N,1,4,1 N,2,4,1 N,3,1,1 \
        E,0,1 E,0,2 E,1,3 E,2,3 S,0,0 T,0,3";
    let (got, log) = routed(&tables(&text(lines)), 9);
    assert_eq!(got, answer(&[], &[1, 1, 9]));
    assert_eq!(log, [1, 0, 3, 4000, 0, 3, 0, 1, 3]);
}

#[test]
fn factors() {
    let factors = [1, 2, 3, 4, 19, 20, 21].map(|iteration| Tuning::PLAIN.factor_in(iteration));
    assert_eq!(factors, [0, 50, 75, 112, 48997, 65535, 65535]);
}

#[test]
fn prices() {
    for kind in [0, 1, 2, 4] {
        assert_eq!(price(kind, 50, 1, 2, 1), answer(&[], &[2000]));
        assert_eq!(price(kind, 50, 2, 2, 1), answer(&[], &[3000]));
    }
    assert_eq!(price(3, 0, 511, 1, 1), answer(&[], &[1900]));
    assert_eq!(price(53, 65535, 511, 1, 101179), answer(&[], &[101179 * 1000 * (100 + 65535 * 511)]));
}

/// Before 2.3 these two nets never settled.
#[test]
fn two_nets_from_one_source() {
    for limit in [1, 2, 7, 100] {
        let lines = format!("F,3,2,2,{limit} N,0,0,1 N,1,1,1 N,2,1,1 E,0,1 E,0,2 S,0,0 T,0,1 S,1,0 T,1,2");
        let t = tables(&text(&lines));
        let (got, log) = routed(&t, 16);
        assert_eq!(got, answer(&[], &[1, 2, 16]));
        assert_eq!(log, [1, 0, 1, 2000, 0, 2, 0, 1, 1, 0, 2, 2000, 0, 2, 0, 2]);
        assert_eq!(written(&t.source, &log), text("R,1,2 B,0,0,1 B,0,0,2 J,1,0"));
    }
}

#[test]
fn faulty_texts() {
    assert_eq!(refusal(""), [1, 1]);
    assert_eq!(refusal(&text(B).replace("T,0,4\n", "T,0,4\rT,0,5\n")), [1, 15]);
    assert_eq!(refusal(&text(B).replace("T,0,4\n", "T,0,4\r\n")), [1, 15]);
    assert_eq!(refusal(&text(&B.replace("N,2,4,1", "N,2,54,1"))), [2, 4]);
    assert_eq!(refusal(&text(&B.replace("N,2,4,1", "N,2,4,0"))), [2, 4]);
    assert_eq!(refusal(&text(&B.replace("F,6,6,2,2", "F,6,6,2,101"))), [2, 1]);
}
