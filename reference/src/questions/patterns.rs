//! The ends of every range with their neighbours, and special bit patterns, in each of the eight floats.

use super::shapes::power;
use super::{document, earth, Case};
use crate::entrance::ROOM;
use crate::wire::put_float;

const SIGN: u64 = 1 << 63;
const INFINITY: u64 = 0x7FF0_0000_0000_0000;
const QUIET: u64 = INFINITY | 1 << 51;

pub fn floats() -> Vec<Case> {
    let mut all = Vec::new();
    for base in [document(), earth()] {
        for i in 0..8 {
            for bits in patterns() {
                let mut bytes = base.write();
                put_float(&mut bytes, i, bits);
                all.push(Case::new(&bytes, ROOM as u16));
            }
        }
    }
    all
}

/// Returns the patterns with both signs.
fn patterns() -> Vec<u64> {
    let ends = [1.0, power(20), power(40), power(60)].map(f64::to_bits);
    let near = ends.into_iter().flat_map(|b| [b - 1, b, b + 1]);
    let plain = [0.5, 2.0, power(41), power(61), f64::MAX].map(f64::to_bits);
    let small = [0, 1, (1 << 52) - 1, 1 << 52];
    let odd = [INFINITY, INFINITY | 1, QUIET - 1, QUIET, QUIET | 1, SIGN - 1];
    let all = near.chain(plain).chain(small).chain(odd);
    all.flat_map(|b| [b, b | SIGN]).collect()
}
