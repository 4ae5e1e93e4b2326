//! The lambdas that are swept with every number of whole revolutions.

use crate::random::Random;

pub fn lambdas(r: &mut Random) -> Vec<f64> {
    let mut all = plain();
    all.extend((0..210).map(|_| r.fraction() * 2.0 - 1.0));
    all.extend((18..=53).flat_map(|j| [beside_one(j, r), -beside_one(j, r)]));
    all.extend((21..=48).map(|j| -beside_one(j, r)));
    all
}

/// Returns zeros, powers of two, a subnormal, some values with few digits, and the last one that the
/// entrance accepts (c/s = 2^-10), all with both signs.
fn plain() -> Vec<f64> {
    let shortest_chord = (1.0 - 1.0 / 1024.0f64).sqrt();
    let powers = [-1022, -600, -53, -27, -2, -1].map(|e| 2f64.powi(e));
    let others = [0.0, f64::from_bits(1), 0.6, 0.9, 0.99, 0.999, shortest_chord];
    let sizes = powers.into_iter().chain(others);
    sizes.flat_map(|size| [size, -size]).collect()
}

/// Draws a lambda that is one to two times 2^-j below 1. The times are noisy from about j = 37 on, and with
/// the negated lambda from about j = 21 on.
pub fn beside_one(j: i32, r: &mut Random) -> f64 {
    (1.0 - 2f64.powi(-j) * (1.0 + r.fraction())).min(1f64.next_down())
}
