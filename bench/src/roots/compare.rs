//! Compares single square roots with the hardware's.

use crate::operands::{
    around, exact_square, rounded_square, square_of_middle, subnormal, very_near_middle, with_neighbours,
    INFINITY, LEAST_NORMAL,
};
use crate::{estimates, proved};
use reference::random::Random;
use reference::root;
use std::iter::repeat_with;

/// The number of subnormals, and of squares of each kind.
const SUBNORMALS: usize = 1_000_000;
const SQUARES: usize = 1_000_000;

/// Compares `count` random operands and each kind of difficult operands. `failing` has operands whose estimate fails.
pub fn compare(count: u64, failing: &[u64]) -> bool {
    compare_random(count)
        && compare_subnormals()
        && compare_squares("squares of whole numbers and their neighbours", exact_square)
        && compare_squares("rounded squares and their neighbours", rounded_square)
        && compare_squares("rounded squares of middles and their neighbours", square_of_middle)
        && compare_squares("operands with roots very near middles and their neighbours", very_near_middle)
        && compare_ends()
        && same("operands whose estimate fails", failing.iter().copied())
}

/// Compares random bits. Half of the operands have the sign bit cleared, since the root of a negative one is refused.
fn compare_random(count: u64) -> bool {
    let mut random = Random::new(7);
    same("random operands", (0..count).map(|i| random.word() >> (i % 2)))
}

fn compare_subnormals() -> bool {
    let mut random = Random::new(22);
    same("subnormals", repeat_with(|| subnormal(&mut random)).take(SUBNORMALS))
}

fn compare_squares(what: &str, square: fn(&mut Random) -> u64) -> bool {
    let mut random = Random::new(23);
    same(what, repeat_with(|| square(&mut random)).take(SQUARES).flat_map(with_neighbours))
}

fn compare_ends() -> bool {
    let [low, high] = estimates::ends();
    let ends = [low, high, LEAST_NORMAL, INFINITY, 1f64.to_bits(), 4f64.to_bits()];
    same("operands around the ends of the ranges, 1 and 4", ends.into_iter().flat_map(around))
}

fn same(what: &str, operands: impl Iterator<Item = u64>) -> bool {
    let mut count = 0;
    for b in operands {
        let (ours, theirs) = (proved::root_bits(b), root::root_bits(b));
        if ours != theirs {
            println!("root of {b:016x}, one of the {what}: proved {ours:016x}, hardware {theirs:016x}");
            return false;
        }
        count += 1;
    }
    println!("square root: {count} {what}, every bit equal");
    true
}
