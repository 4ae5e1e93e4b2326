//! The sweeps that are compared, in a fixed order.

mod curve;
mod lambdas;
mod outside;
mod rare;
mod void_stations;

use crate::random::Random;
use crate::sweep::crossings;
use crate::time::MOST_TURNS;
use curve::{Curve, SORTS};

pub const FRAME: usize = 24;

/// The input of a sweep: the bits of lambda and of the wanted time, which may be any patterns, and M.
#[derive(Clone, Copy, Debug, PartialEq, Eq)]
pub struct Case {
    pub lambda: u64,
    pub wanted: u64,
    pub m: u16,
}

impl Case {
    fn new(lambda: f64, wanted: f64, m: u16) -> Case {
        Case { lambda: lambda.to_bits(), wanted: wanted.to_bits(), m }
    }

    /// Returns the bits of lambda and of the wanted time, and M as a u64, each little-endian.
    pub fn frame(&self) -> [u8; FRAME] {
        let mut frame = [0; FRAME];
        frame[..8].copy_from_slice(&self.lambda.to_le_bytes());
        frame[8..16].copy_from_slice(&self.wanted.to_le_bytes());
        frame[16..].copy_from_slice(&u64::from(self.m).to_le_bytes());
        frame
    }

    pub fn line(&self) -> String {
        crossings(f64::from_bits(self.lambda), self.m, f64::from_bits(self.wanted)).line()
    }
}

/// Returns every sweep of the comparison.
pub fn cases() -> Vec<Case> {
    let mut r = Random::new(11);
    let mut all = every_turn(&mut r);
    all.extend(rare::cases(&mut r));
    all.extend(outside::cases(&mut r));
    all.extend(void_stations::cases(&mut r));
    all
}

/// Returns sweeps with void stations, drawn from a seed: in rising x the first void one is the first station or a later
/// one, with and without crossings below and above it.
pub fn with_void_stations(seed: u64) -> Vec<Case> {
    void_stations::cases(&mut Random::new(seed))
}

/// Returns sweeps with every number of whole revolutions for each lambda. The sort of the wanted time
/// changes from one to the next.
fn every_turn(r: &mut Random) -> Vec<Case> {
    let mut all = Vec::new();
    for (i, lambda) in lambdas::lambdas(r).into_iter().enumerate() {
        for m in 0..=MOST_TURNS {
            let curve = Curve::new(lambda, m);
            let sort = (i as u64 + u64::from(m)) % SORTS;
            all.push(Case::new(lambda, curve.wanted(sort, r), m));
        }
    }
    all
}

#[cfg(test)]
mod tests;
