//! Random places: with values drawn from the ranges of step 1 (01, Time at one place), and with arbitrary bits.

use super::ends::{ends, turns};
use super::Place;
use crate::random::Random;
use crate::time::{HIGHEST, HIGHEST_TURNING, LOWEST, MOST_TURNS, PARABOLA};

/// Returns places for every number of whole revolutions, with more of them for M = 0.
pub fn inside(r: &mut Random) -> Vec<Place> {
    let every = (0..=MOST_TURNS).flat_map(|m| [m; 300]);
    every.chain([0; 3000]).map(|m| Place::new(lambda(r), some_k(m, r), m)).collect()
}

/// Draws a lambda between −1 and 1. One in four is drawn close to an end, one in four close to 0.
fn lambda(r: &mut Random) -> f64 {
    let size = match r.below(4) {
        0 => 1.0 - 2f64.powi(-(r.below(50) as i32)) * r.fraction(),
        1 => 2f64.powi(-(r.below(80) as i32)) * r.fraction(),
        _ => r.fraction(),
    };
    if r.below(2) == 0 {
        size
    } else {
        -size
    }
}

/// Draws a k from the range. One in four is close to x = 1, or as close as the range allows.
fn some_k(m: u16, r: &mut Random) -> i64 {
    let highest = if m == 0 { HIGHEST } else { HIGHEST_TURNING };
    if r.below(4) == 0 {
        let n = 1 + r.below(32) as u32;
        let k = PARABOLA + r.bits(n) as i64 - (1 << (n - 1));
        return k.min(highest);
    }
    LOWEST + r.below((highest - LOWEST) as u64 + 1) as i64
}

/// Returns places with any lambda, k and M: values in the ranges, values at their ends, and random bits.
pub fn outside(r: &mut Random) -> Vec<Place> {
    let ends: Vec<i64> = ends().collect();
    let turns: Vec<u16> = turns().collect();
    let place = |i: u32| {
        let bits = if i.is_multiple_of(2) { r.word() } else { lambda(r).to_bits() };
        let k = match r.below(3) {
            0 => ends[r.below(ends.len() as u64) as usize],
            1 => some_k(0, r),
            _ => r.word() as i64 >> r.below(40),
        };
        let m = if r.below(2) == 0 { turns[r.below(turns.len() as u64) as usize] } else { r.word() as u16 };
        Place { lambda: bits, k, m }
    };
    (0..3000).map(place).collect()
}
