//! The estimated root and its exact test, compiled from the proved source. If the test does not accept the estimate, the
//! proved code computes the root by digits. This module counts how often that happens.

mod check;
mod places;
mod shares;

pub use check::check;
pub use shares::print_shares;

use crate::operands::ordinary;
use reference::random::Random;
use source::estimate::{estimated_root, HIGH_END, LOW_END};
use source::exact_test::is_root;
use std::iter::repeat_with;

/// The files of the crate float64, as build.rs reads them.
#[allow(dead_code, clippy::all)]
mod source {
    fn wrapping_add_u64(a: u64, b: u64) -> u64 {
        a.wrapping_add(b)
    }

    fn wrapping_sub_u64(a: u64, b: u64) -> u64 {
        a.wrapping_sub(b)
    }

    include!(concat!(env!("OUT_DIR"), "/estimate.rs"));
}

/// Reports whether the proved code estimates the root of x.
fn is_estimated(x: f64) -> bool {
    LOW_END < x && x < HIGH_END
}

/// Reports whether the root of x is estimated and the exact test does not accept the estimate.
pub fn fails(x: f64) -> bool {
    is_estimated(x) && !is_root(x, estimated_root(x))
}

/// Returns `count` ordinary numbers whose estimate fails. It tries at most 100,000 numbers for each of them, and
/// returns fewer if that is not enough.
pub fn failing(count: usize, random: &mut Random) -> Vec<u64> {
    let tries = 100_000 * count;
    repeat_with(|| ordinary(random)).take(tries).filter(|&b| fails(f64::from_bits(b))).take(count).collect()
}

/// The bits of the two ends between which roots are estimated.
pub fn ends() -> [u64; 2] {
    [LOW_END, HIGH_END].map(f64::to_bits)
}
