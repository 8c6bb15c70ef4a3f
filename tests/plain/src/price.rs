//! Base costs, prices, factors and the tuning that they move by.

use crate::Answer;

pub const MAX_KIND: u32 = 53;
pub const MAX_FACTOR: u32 = 65_535;
pub const MAX_OTHERS: u32 = 511;
pub const MAX_HISTORY: u32 = 101_179;

/// What a timed search alone takes a history to.
pub const MAX_TIMED_HISTORY: u32 = 39_859;

pub const MAX_DELAY: u32 = 1_000;
pub const MAX_CRITICALITY: u32 = 9;

/// Factor in iteration 2, growth up / down, and what a history grows by for each net too many.
#[derive(Clone, Copy)]
pub struct Tuning {
    pub first: u32,
    pub up: u32,
    pub down: u32,
    pub step: u32,
}

impl Tuning {
    /// That of a text without a P line.
    pub const PLAIN: Tuning = Tuning { first: 50, up: 3, down: 2, step: 1 };

    /// The same bounds hold in a text and in a direct call.
    pub fn is_sound(self) -> bool {
        self.first <= 1_000
            && (1..=4).contains(&self.down)
            && (self.down..=8).contains(&self.up)
            && (1..=2).contains(&self.step)
    }

    /// The factor of the next iteration: of iteration 2 after iteration 1, else from the last factor.
    pub fn next_factor(self, iteration: u32, factor: u32) -> u32 {
        if iteration <= 1 {
            return self.first;
        }
        let grown = factor as u64 * self.up as u64 / self.down as u64;
        grown.min(MAX_FACTOR as u64) as u32
    }

    /// The factor in an iteration (from 1).
    pub fn factor_in(self, iteration: u32) -> u32 {
        let mut factor = 0;
        for earlier in 1..iteration {
            factor = self.next_factor(earlier, factor);
        }
        factor
    }

    /// A history after an iteration.
    pub fn next_history(self, history: u32, overuse: u32) -> u32 {
        history + self.step * overuse
    }
}

/// The base cost of a kind from 0 to 53.
pub fn base(kind: u32) -> u64 {
    match kind {
        0..=2 => 20,
        3 => 19,
        _ => 20 * (kind as u64 - 3),
    }
}

/// The price for numbers within their bounds.
pub fn price_of(kind: u32, factor: u32, others: u32, capacity: u32, history: u32) -> u64 {
    let over = (others as u64 + 1).saturating_sub(capacity as u64);
    history as u64 * base(kind) * (100 + factor as u64 * over)
}

/// A price that is weighed for a sink: its criticality, in tenths, buys delay, and the rest is the congestion price.
pub fn weighed(congestion: u64, delay: u32, criticality: u32) -> u64 {
    criticality as u64 * delay as u64 * 100 + (10 - criticality as u64) * congestion
}

pub fn factor_is_good(factor: u32) -> bool {
    factor <= MAX_FACTOR
}

pub fn others_is_good(others: u32) -> bool {
    others <= MAX_OTHERS
}

pub fn history_is_good(history: u32) -> bool {
    (1..=MAX_HISTORY).contains(&history)
}

pub fn delay_is_good(delay: u32) -> bool {
    delay <= MAX_DELAY
}

pub fn criticality_is_good(criticality: u32) -> bool {
    criticality <= MAX_CRITICALITY
}

/// The price alone, or 13 with the place of the first bad number.
pub fn price(kind: u32, factor: u32, others: u32, capacity: u32, history: u32) -> Answer {
    let good = price_is_good(kind, factor, others, capacity, history);
    unless_bad(&good, || price_of(kind, factor, others, capacity, history))
}

/// The timed price alone; delay and criticality follow history.
pub fn timed_price(
    kind: u32,
    factor: u32,
    others: u32,
    capacity: u32,
    history: u32,
    delay: u32,
    criticality: u32,
) -> Answer {
    let untimed = price_is_good(kind, factor, others, capacity, history);
    let good = [&untimed[..], &[delay_is_good(delay), criticality_is_good(criticality)]].concat();
    unless_bad(&good, || weighed(price_of(kind, factor, others, capacity, history), delay, criticality))
}

/// Which of the price's numbers keep their bounds.
fn price_is_good(kind: u32, factor: u32, others: u32, capacity: u32, history: u32) -> [bool; 5] {
    [
        kind <= MAX_KIND,
        factor_is_good(factor),
        others_is_good(others),
        (1..=255).contains(&capacity),
        history_is_good(history),
    ]
}

/// 13 with the place of the first number that isn't good, or else the price.
fn unless_bad(good: &[bool], price: impl Fn() -> u64) -> Answer {
    match good.iter().position(|good| !good) {
        Some(place) => Answer::refused(&[13, place as u64], 1),
        None => Answer::good(&[price()]),
    }
}
