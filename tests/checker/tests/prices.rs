//! Prices at the values that 01 gives.

mod common;

use checker::prices::{base, factor, price};
use common::tuning;

#[test]
fn base_costs() {
    let costs: Vec<u64> = (0..54).map(base).collect();
    let wires = (1..=50).map(|length| 20 * length);
    assert_eq!(costs, [20, 20, 20, 19].into_iter().chain(wires).collect::<Vec<u64>>());
}

/// The factors of a tuning in some iterations.
fn factors<const N: usize>(numbers: [u32; 4], iterations: [u32; N]) -> [u64; N] {
    iterations.map(|iteration| factor(tuning(numbers), iteration))
}

#[test]
fn plain_factors() {
    assert_eq!(
        factors([50, 3, 2, 1], [1, 2, 3, 4, 19, 20, 21, 100]),
        [0, 50, 75, 112, 48997, 65535, 65535, 65535]
    );
}

#[test]
fn tuned_factors() {
    assert_eq!(factors([0, 8, 1, 2], [1, 2, 3, 100]), [0, 0, 0, 0]);
    assert_eq!(factors([7, 4, 4, 1], [1, 2, 3, 100]), [0, 7, 7, 7]);
    assert_eq!(factors([1000, 8, 1, 1], [1, 2, 3, 4, 5]), [0, 1000, 8000, 64000, 65535]);
    assert_eq!(factors([10, 7, 3, 1], [2, 3, 4, 5]), [10, 23, 53, 123]);
}

#[test]
fn others_and_capacity() {
    assert_eq!(price(0, 50, 0, 2, 1), 2000);
    assert_eq!(price(0, 50, 1, 2, 1), 2000);
    assert_eq!(price(0, 50, 2, 2, 1), 3000);
}

#[test]
fn dearest_price_fits() {
    assert_eq!(price(15, 65_535, 511, 1, 101_179), 101_179 * 240 * (100 + 65_535 * 511));
}
