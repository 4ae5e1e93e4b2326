//! Lambdas of every structure: zeros, powers of two, the floats closest to ±1, and patterns that aren't valid lambdas.

use super::Place;
use crate::random::Random;
use crate::time::{HIGHEST, HIGHEST_TURNING, LOWEST, PARABOLA, SPACING};

const SIGN: u64 = 1 << 63;
const INFINITY: u64 = 0x7FF0_0000_0000_0000;
const QUIET: u64 = 1 << 51;

pub fn places(r: &mut Random) -> Vec<Place> {
    let mut all = Vec::new();
    for bits in inside().into_iter().chain(outside()) {
        for size in [bits, bits | SIGN] {
            for m in [0, 1, 16] {
                all.extend(some_k(m, r).map(|k| Place { lambda: size, k, m }));
            }
        }
    }
    all
}

/// Returns the ends of the range, some k with few binary digits, and three random k.
fn some_k(m: u16, r: &mut Random) -> impl Iterator<Item = i64> {
    let highest = if m == 0 { HIGHEST } else { HIGHEST_TURNING };
    let half = PARABOLA / 2;
    let plain = [LOWEST, LOWEST + SPACING, -half, -SPACING, -1, 0, 1, half, PARABOLA - SPACING, highest];
    let within = |low: i64, high: i64, r: &mut Random| low + r.below((high - low) as u64) as i64;
    let random = [within(LOWEST, 0, r), within(0, PARABOLA - SPACING, r), within(LOWEST, highest, r)];
    plain.into_iter().chain(random)
}

/// Returns the bits of sizes below 1.
fn inside() -> Vec<u64> {
    let mut all = vec![0, 1, 2, 1 << 51, (1 << 52) - 1, 1 << 52, (1 << 52) + 1];
    all.extend([0.6, 0.9, 0.99, 0.999, (1.0 - 1.0 / 1024.0f64).sqrt()].map(f64::to_bits));
    all.extend([1, 2, 3, 26, 27, 52, 53, 54, 100, 511, 512, 600].map(|j| power(-j).to_bits()));
    all.extend((1..=53).map(|j| (1.0 - power(-j)).to_bits()));
    all.extend((1..=4).map(|i| 1f64.to_bits() - i));
    all
}

/// Returns the bits of sizes of 1 and above, infinity and NaN.
fn outside() -> Vec<u64> {
    let one = 1f64.to_bits();
    let nan = [INFINITY + 1, INFINITY | QUIET, INFINITY | QUIET | 1, SIGN - 1, INFINITY | (QUIET - 1)];
    let mut all = vec![one, one + 1, one + 2, 2f64.to_bits(), 2f64.to_bits() - 1, INFINITY - 1, INFINITY];
    all.extend(nan);
    all
}

fn power(e: i32) -> f64 {
    2f64.powi(e)
}
