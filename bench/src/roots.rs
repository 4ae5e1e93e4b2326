//! Square roots, one at a time and four at a time, by the proved code and by the hardware.

mod compare;
mod four;
mod time;

pub use time::time;

use crate::{estimates, operands, proved};
use reference::random::Random;
use reference::root;

/// The number of ordinary operands that are timed.
const TIMED: usize = 20_000;

/// The number of operands with an estimate that fails.
const FAILING: usize = 1_000;

/// Compares `count` random roots, roots of difficult operands, and `calls` calls for four roots.
pub fn compare(count: u64, calls: u64) -> bool {
    let failing = estimates::failing(FAILING, &mut Random::new(24));
    if failing.len() < FAILING {
        println!("only {} operands were found whose estimate fails", failing.len());
        return false;
    }
    compare::compare(count, &failing) && four::compare(calls, &failing)
}

/// Returns the positive operands of the test vectors.
pub fn positive() -> Vec<u64> {
    root::operands().into_iter().filter(|&b| b != 0 && root::root_bits(b) != root::REFUSED).collect()
}

/// Returns random numbers from 2^-200 to 2^201, whose roots are estimated.
pub fn ordinary() -> Vec<u64> {
    let mut random = Random::new(20);
    (0..TIMED).map(|_| operands::ordinary(&mut random)).collect()
}

/// Returns the ordinary operands four at a time.
pub fn ordinary_fours() -> Vec<[f64; 4]> {
    ordinary().chunks_exact(4).map(|b| [b[0], b[1], b[2], b[3]].map(f64::from_bits)).collect()
}

pub fn hardware(b: u64) -> u64 {
    f64::from_bits(b).sqrt().to_bits()
}

/// Returns the sum of the bits of the four roots, as each function that takes four roots does when it is timed.
pub fn hardware_four(numbers: [f64; 4]) -> u64 {
    sum_of_bits(numbers.map(f64::sqrt))
}

pub fn proved_four(mut numbers: [f64; 4]) -> u64 {
    proved::four_roots(&mut numbers);
    sum_of_bits(numbers)
}

fn sum_of_bits(numbers: [f64; 4]) -> u64 {
    numbers.iter().fold(0, |sum, x| sum.wrapping_add(x.to_bits()))
}
