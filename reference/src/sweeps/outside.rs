//! Sweeps that no question asks for: lambdas whose size isn't below 1, and too many whole revolutions. All
//! their stations are void.

use super::curve::ODD;
use super::Case;
use crate::random::Random;
use crate::time::MOST_TURNS;

const SIGN: u64 = 1 << 63;
const INFINITY: u64 = 0x7FF0_0000_0000_0000;
const QUIET: u64 = INFINITY | 1 << 51;

/// Returns the bits of sizes of 1 and above, infinity and NaN, each with both signs.
fn lambdas() -> impl Iterator<Item = u64> {
    let one = 1f64.to_bits();
    let sizes = [one, one + 1, 2f64.to_bits(), INFINITY - 1, INFINITY, INFINITY + 1, QUIET, SIGN - 1];
    sizes.into_iter().flat_map(|size| [size, size | SIGN])
}

pub fn cases(r: &mut Random) -> Vec<Case> {
    let mut all = Vec::new();
    for lambda in lambdas() {
        all.extend((0..=MOST_TURNS).map(|m| Case { lambda, wanted: wanted(r), m }));
    }
    for m in [17, 18, 255, 256, 257, 0x8000, u16::MAX] {
        let lambdas = [0.0, 0.6, -0.9, r.fraction(), -r.fraction(), f64::NAN];
        all.extend(lambdas.map(|l| Case { lambda: l.to_bits(), wanted: wanted(r), m }));
    }
    all
}

/// Draws the bits of an ordinary wanted time, of a special one, or random bits.
fn wanted(r: &mut Random) -> u64 {
    match r.below(4) {
        0 => ODD[r.below(ODD.len() as u64) as usize].to_bits(),
        1 => r.word(),
        _ => (r.fraction() * 100.0).to_bits(),
    }
}
