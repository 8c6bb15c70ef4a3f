//! No log content and no numbers make the checker panic.

mod common;

use checker::{check, Fault};
use common::*;

/// A small generator of numbers.
fn draw(state: &mut u64) -> u32 {
    *state = state.wrapping_mul(6364136223846793005).wrapping_add(1442695040888963407);
    (*state >> 33) as u32
}

fn word(state: &mut u64) -> u32 {
    match draw(state) % 8 {
        0 => u32::MAX - draw(state) % 4,
        1 => draw(state),
        _ => draw(state) % 10,
    }
}

#[test]
fn random_changes() {
    let tables = narrow(3);
    let mut state = 1;
    for _ in 0..20_000 {
        let mut log = NARROW_LOG.to_vec();
        for _ in 0..1 + draw(&mut state) % 4 {
            let place = draw(&mut state) as usize % log.len();
            log[place] = word(&mut state);
        }
        let same = log == NARROW_LOG;
        let result = tables.check(&log, &[9, 3, 1], 3, 6);
        assert_eq!(result.is_ok(), same, "{log:?}");
    }
}

#[test]
fn random_words_and_numbers() {
    let tables = b(2);
    let mut state = 2;
    for _ in 0..20_000 {
        let log: Vec<u32> = (0..draw(&mut state) % 40).map(|_| word(&mut state)).collect();
        let mut number = || u64::from(word(&mut state));
        let refusal = [6 + number() % 4, number(), number()];
        let (iteration, turns) = (number(), number());
        let words = number() % (log.len() as u64 + 2);
        let _ = check(&tables.job(), &log, &refusal, iteration, turns, words);
    }
}

/// A long path round a ring, with its true cost.
#[test]
fn long_path() {
    let edges = [(0, 1), (1, 2), (2, 1), (2, 3)];
    let job = tables(&[0, 15, 15, 1], &edges, &[(0, &[3])], 1);
    let rounds = 50_000;
    let cost = rounds * 48_000 + 2000;
    let mut log = vec![1, 0, 3, cost, 0, 2 * rounds + 2, 0];
    log.extend((0..rounds).flat_map(|_| [1, 2]));
    log.push(3);
    let fault = Fault::CheaperPath { turn: 0, logged: cost.into(), least: 50_000 };
    assert_eq!(job.check(&log, &[], 1, 1), Err(fault));
}
