//! The clauses about the outcome and its numbers.

mod common;

use checker::trees::Trees;
use checker::{check, Fault};
use common::*;

#[test]
fn refusals_of_01_pass() {
    assert_eq!(b(1).check(&B_LOG[..18], &[9, 1, 1], 1, 2), Ok(()));
    assert_eq!(check(&b(2).job(), &B_LOG[..35], &[8, 2, 3], 2, 3, 27), Ok(()));
    assert_eq!(check(&b(2).job(), &[0; 8], &[8, 1, 0], 1, 0, 0), Ok(()));
    assert_eq!(check(&b(2).job(), &B_LOG[..20], &[8, 2, 2], 2, 2, 18), Ok(()));
    assert_eq!(check(&c_cut().job(), &[5; 40], &[7, 0, 0], 0, 0, 0), Ok(()));
}

#[test]
fn accepted_with_overfull_node() {
    let fault = Fault::Overfull { node: 2, load: 2, capacity: 1 };
    assert_eq!(b(1).check(&B_LOG[..18], &[], 1, 2), Err(fault));
    let mut wide = b(1);
    wide.capacity[2] = 2;
    assert_eq!(wide.check(&B_LOG[..18], &[], 1, 2), Ok(()));
}

#[test]
fn accepted_with_missing_sink() {
    let fault = Fault::MissedSink { net: 0, sink: 2 };
    assert_eq!(c().check(&C_LOG[..9], &[], 1, 1), Err(fault));
    let none = Fault::MissedSink { net: 0, sink: 4 };
    assert_eq!(b(2).check(&[], &[], 1, 0), Err(none));
    let second = Fault::MissedSink { net: 1, sink: 5 };
    assert_eq!(b(2).check(&B_LOG[..9], &[], 1, 1), Err(second));
}

#[test]
fn accepted_in_another_iteration() {
    for reported in [0, 1, 3] {
        let fault = Fault::ReportedIteration { reported, logged: 2 };
        assert_eq!(b(2).check(&B_LOG, &[], reported, 4), Err(fault));
    }
}

/// Cheapest paths never reach a node twice, so this is asked of trees alone.
#[test]
fn node_reached_twice() {
    let tables = c();
    let job = tables.job();
    let reached = |paths: &[&[usize]]| {
        let mut trees = Trees::new(&job);
        trees.begin(0, 1);
        paths.iter().for_each(|path| trees.add(0, path));
        trees.reached_twice(&job, 0)
    };
    assert_eq!(reached(&[&[0, 1, 3], &[1, 2]]), None);
    assert_eq!(reached(&[&[0, 1, 3], &[0, 1, 2]]), Some(1));
    assert_eq!(reached(&[&[0, 1, 2, 1, 3]]), Some(1));
    assert_eq!(reached(&[&[0, 1], &[1, 0]]), Some(0));
}

#[test]
fn seven_for_a_reachable_sink() {
    let b_fault = check(&b(2).job(), &[0; 40], &[7, 0, 0], 0, 0, 0);
    assert_eq!(b_fault, Err(Fault::EverySinkReachable { net: 0, place: 0 }));
    let c_fault = check(&c_cut().job(), &[0; 40], &[7, 0, 1], 0, 0, 0);
    assert_eq!(c_fault, Err(Fault::NamedSinkReachable { net: 0, place: 1 }));
}

#[test]
fn seven_with_wrong_numbers() {
    let cut = c_cut();
    let seven = |net, place| check(&cut.job(), &[], &[7, net, place], 0, 0, 0);
    assert_eq!(seven(0, 2), Err(Fault::NoSuchSink { net: 0, place: 2 }));
    assert_eq!(seven(1, 0), Err(Fault::NoSuchSink { net: 1, place: 0 }));
    assert_eq!(seven(u64::MAX, 0), Err(Fault::NoSuchSink { net: u64::MAX, place: 0 }));
    let one = check(&cut.job(), &[], &[7, 0, 0], 1, 0, 0);
    assert_eq!(one, Err(Fault::NotZero { iteration: 1, turns: 0, words: 0 }));
}

#[test]
fn seven_names_the_first() {
    let lone = tables(&[0, 1, 1], &[], &[(0, &[1, 2])], 1);
    assert_eq!(check(&lone.job(), &[], &[7, 0, 0], 0, 0, 0), Ok(()));
    let later = check(&lone.job(), &[], &[7, 0, 1], 0, 0, 0);
    let fault = Fault::NotFirstUnreachable { net: 0, place: 1, first_net: 0, first_place: 0 };
    assert_eq!(later, Err(fault));
}

#[test]
fn eight_with_wrong_numbers() {
    let b = b(2);
    let eight =
        |refusal: &[u64], iteration| check(&b.job(), &B_LOG[..35], refusal, iteration, 3, 27).unwrap_err();
    let turns = Fault::RefusalNumber { number: 8, place: 2, given: 4, due: 3 };
    assert_eq!(eight(&[8, 2, 4], 2), turns);
    let iteration = Fault::RefusalNumber { number: 8, place: 1, given: 2, due: 1 };
    assert_eq!(eight(&[8, 2, 3], 1), iteration);
    assert_eq!(eight(&[8, 1, 3], 1), Fault::ReportedIteration { reported: 1, logged: 2 });
    assert_eq!(eight(&[8, 3, 3], 3), Fault::ReportedIteration { reported: 3, logged: 2 });
}

#[test]
fn idle_refusals() {
    let eight = check(&b(2).job(), &[0; 40], &[8, 1, 0], 1, 0, 0);
    assert_eq!(eight, Err(Fault::LogNotFull { room: 40 }));
    let nine = check(&b(2).job(), &[0; 40], &[9, 2, 1], 2, 0, 0);
    assert_eq!(nine, Err(Fault::ReportedIteration { reported: 2, logged: 0 }));
    let unheeded = check(&c_cut().job(), &[], &[8, 1, 0], 1, 0, 0);
    assert_eq!(unheeded, Err(Fault::NotRefused { net: 0, place: 0 }));
}

#[test]
fn nine_with_wrong_numbers() {
    let over = Fault::RefusalNumber { number: 9, place: 2, given: 2, due: 1 };
    assert_eq!(b(1).check(&B_LOG[..18], &[9, 1, 2], 1, 2), Err(over));
    let early = Fault::LimitNotReached { iteration: 1, limit: 2 };
    assert_eq!(b(2).check(&B_LOG[..18], &[9, 1, 1], 1, 2), Err(early));
    assert_eq!(b(2).check(&B_LOG, &[9, 2, 1], 2, 4), Err(Fault::NothingOver));
}

#[test]
fn other_refusals() {
    for refusal in [&[5, 1][..], &[6, 48], &[7], &[7, 0], &[8, 2, 4, 0], &[0]] {
        let fault = Fault::UnknownRefusal { numbers: refusal.to_vec() };
        assert_eq!(b(2).check(&B_LOG, refusal, 2, 4), Err(fault));
    }
}
