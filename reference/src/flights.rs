//! The flights on which the velocities are compared, in a fixed order.

use crate::entrance::{judge, Problem};
use crate::questions;
use crate::random::Random;
use crate::time::{HIGHEST, HIGHEST_TURNING, LOWEST, PARABOLA, SPACING};
use crate::triangle::Triangle;
use crate::velocity::Flight;

pub const FLOATS: usize = 17;
pub const FRAME: usize = 8 * FLOATS + 8;

const SIGN: u64 = 1 << 63;
const INFINITY: u64 = 0x7FF0_0000_0000_0000;
const QUIET: u64 = INFINITY | 1 << 51;

/// The input of the velocity step: the bits of the floats, which may be any patterns, and k.
#[derive(Clone, Copy, Debug, PartialEq, Eq)]
pub struct Case {
    /// In this order: mu, lambda, semiperimeter, chord, rho, sigma, both radii, the normal, unit 1 and unit 2.
    pub floats: [u64; FLOATS],
    pub k: i64,
}

impl Case {
    fn new(p: &Problem, k: i64) -> Case {
        let (t, n, a, b) = (&p.triangle, p.normal, p.unit1, p.unit2);
        let sides = [p.mu, t.lambda, t.semiperimeter, t.chord, t.rho, t.sigma, p.radius1, p.radius2];
        let all: Vec<f64> = sides.into_iter().chain(n).chain(a).chain(b).collect();
        Case { floats: std::array::from_fn(|i| all[i].to_bits()), k }
    }

    pub fn flight(&self) -> Flight {
        let f = self.floats.map(f64::from_bits);
        Flight {
            mu: f[0],
            triangle: Triangle { lambda: f[1], semiperimeter: f[2], chord: f[3], rho: f[4], sigma: f[5] },
            radius1: f[6],
            radius2: f[7],
            normal: [f[8], f[9], f[10]],
            unit1: [f[11], f[12], f[13]],
            unit2: [f[14], f[15], f[16]],
            k: self.k,
        }
    }

    /// Returns the bits of the floats and k, each little-endian.
    pub fn frame(&self) -> [u8; FRAME] {
        let mut frame = [0; FRAME];
        let words = self.floats.into_iter().chain([self.k as u64]);
        for (part, word) in frame.chunks_exact_mut(8).zip(words) {
            part.copy_from_slice(&word.to_le_bytes());
        }
        frame
    }

    /// Returns the bits of v1 and v2 by component, with the same pattern for every NaN.
    pub fn line(&self) -> String {
        let components = self.flight().velocities().concat();
        let word = |x: &f64| format!("{:016x}", if x.is_nan() { QUIET } else { x.to_bits() });
        components.iter().map(word).collect::<Vec<_>>().join(" ")
    }
}

/// Returns every case of the comparison.
pub fn flights() -> Vec<Case> {
    let mut r = Random::new(10);
    let mut all = sound(&mut r);
    all.extend((0..1500).map(|i| Case { floats: garbage(i, &mut r), k: any_k(&mut r) }));
    all
}

/// Returns every third accepted problem of the entrance list, each at three places: a random one, a random
/// station, and an end of the range or x = 1.
fn sound(r: &mut Random) -> Vec<Case> {
    let accepted = questions::cases().into_iter().filter_map(|c| judge(&c.bytes, c.room.into()).ok());
    let mut all = Vec::new();
    for (i, problem) in accepted.step_by(3).enumerate() {
        let highest = if problem.revolutions == 0 { HIGHEST } else { HIGHEST_TURNING };
        let range = (highest - LOWEST) as u64;
        let random = LOWEST + r.below(range + 1) as i64;
        let station = LOWEST + SPACING * r.below(range / SPACING as u64 + 1) as i64;
        let end = [LOWEST, highest, PARABOLA][i % 3];
        all.extend([random, station, end].map(|k| Case::new(&problem, k)));
    }
    all
}

/// Returns one of three mixtures, chosen by `i`: random bits; random bits and special values; or floats of
/// moderate size with a few special values.
fn garbage(i: u32, r: &mut Random) -> [u64; FLOATS] {
    std::array::from_fn(|_| match i % 3 {
        0 => r.word(),
        1 if r.below(2) == 0 => r.word(),
        1 => odd(r),
        _ if r.below(64) == 0 => odd(r),
        _ => middling(r),
    })
}

/// Draws a special value of either sign: a zero, a subnormal, the least or greatest normal number, 1, an infinity or a NaN.
fn odd(r: &mut Random) -> u64 {
    let nan = [INFINITY + 1, QUIET - 1, QUIET, QUIET + 1, SIGN - 1];
    let rest = [0, 1, r.bits(52), (1 << 52) - 1, 1 << 52, 1f64.to_bits(), INFINITY - 1, INFINITY];
    let all = [&nan[..], &rest[..]].concat();
    all[r.below(all.len() as u64) as usize] | (r.word() & SIGN)
}

/// Draws a float with an exponent from −40 to 40. One in eight is negative.
fn middling(r: &mut Random) -> u64 {
    let sign = if r.below(8) == 0 { SIGN } else { 0 };
    sign | (1023 - 40 + r.below(81)) << 52 | r.bits(52)
}

/// Draws a k of any size, sometimes 0 or an end of the i64 range.
fn any_k(r: &mut Random) -> i64 {
    match r.below(16) {
        0 => i64::MIN,
        1 => i64::MAX,
        2 => 0,
        _ => r.word() as i64 >> r.below(64),
    }
}

#[cfg(test)]
mod tests {
    use super::*;

    #[test]
    fn enough_cases_of_every_sort() {
        let all = flights();
        let finite = |c: &&Case| c.flight().velocities().concat().iter().all(|x| x.is_finite());
        let (sound, garbage) = all.split_at(all.len() - 1500);
        assert!(all.len() >= 4000);
        assert!(sound.iter().filter(finite).count() >= 3000);
        let numbers = garbage.iter().filter(finite).count();
        assert!((200..1000).contains(&numbers), "{numbers}");
        for k in [LOWEST, HIGHEST, HIGHEST_TURNING, PARABOLA] {
            assert!(sound.iter().filter(|c| c.k == k).count() > 100);
        }
        assert!(garbage.iter().filter(|c| c.k.unsigned_abs() > 1 << 53).count() > 100);
        assert_eq!(all, flights());
    }

    #[test]
    fn a_frame_and_a_line() {
        let case = Case { floats: std::array::from_fn(|i| i as u64 + 0x0102_0304_0506_0700), k: -2 };
        let frame = case.frame();
        assert_eq!(frame[..8], [0, 7, 6, 5, 4, 3, 2, 1]);
        assert_eq!(frame[128..136], [16, 7, 6, 5, 4, 3, 2, 1]);
        assert_eq!(frame[136..], [0xFE, 255, 255, 255, 255, 255, 255, 255]);
        let nan = Case { floats: [u64::MAX; FLOATS], k: 0 };
        assert_eq!(nan.line(), ["7ff8000000000000"; 6].join(" "));
    }

    /// For mu = 2, L = 0, s = 4, ρ = 0, σ = 1 and x = 1/2, the steps give γ = 2, y = 1, a = −1/2 and b = 1/2.
    #[test]
    fn a_worked_case() {
        let floats = [2.0, 0.0, 4.0, 9.0, 0.0, 1.0, 1.0, 2.0, 0.0, 0.0, 1.0, 1.0, 0.0, 0.0, 0.0, 1.0, 0.0];
        let case = Case { floats: floats.map(f64::to_bits), k: PARABOLA / 2 };
        assert_eq!(case.flight().velocities(), [[-1.0, 2.0, 0.0], [-1.0, 0.5, 0.0]]);
    }
}
