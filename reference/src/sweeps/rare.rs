//! Rare sweeps: many crossings, void stations beside crossings, and brackets that end at a void middle.
//! Rounding causes them if lambda is close to ±1.

use super::curve::Curve;
use super::lambdas::beside_one;
use super::Case;
use crate::random::Random;
use crate::sweep::{Crossings, Walk};
use crate::time::MOST_TURNS;
use std::mem::{discriminant, Discriminant};

/// How many sweeps of each shape are kept, and how many curves are searched.
const KEPT: usize = 6;
const CURVES: u32 = 600;

/// The number of crossings, the sort of walk, and whether some bracket ends at a void middle.
type Shape = (usize, Discriminant<Walk>, bool);

fn shape(c: &Crossings) -> Shape {
    (c.brackets.len(), discriminant(&c.walk), c.brackets.iter().any(|b| b.halvings < 20))
}

/// Returns sweeps that aren't ordinary. A sweep is ordinary if it has at most two crossings, all stations
/// have times, and no bracket ends at a void middle.
pub fn cases(r: &mut Random) -> Vec<Case> {
    let mut found: Vec<(Shape, Case)> = Vec::new();
    for i in 0..CURVES {
        let (lambda, m) = noisy(i, r);
        let curve = Curve::new(lambda, m);
        for n in 0..24 {
            let wanted = [curve.any(r), curve.peak(r), curve.low(r)][n % 3];
            let shape = shape(&curve.crossings(wanted));
            let ordinary = shape.0 <= 2 && shape.1 == discriminant(&Walk::Timed) && !shape.2;
            if !ordinary && found.iter().filter(|f| f.0 == shape).count() < KEPT {
                found.push((shape, Case::new(lambda, wanted, m)));
            }
        }
    }
    found.into_iter().map(|f| f.1).collect()
}

/// Draws a lambda and M with noisy times: a lambda close to 1, where the times are noisy only for M = 0, or
/// one close to −1, often one where the noise just begins.
fn noisy(i: u32, r: &mut Random) -> (f64, u16) {
    let turns = r.below(u64::from(MOST_TURNS) + 1) as u16;
    match i % 4 {
        0 => (beside_one(37 + r.below(17) as i32, r), 0),
        1 => (-beside_one(21 + r.below(33) as i32, r), 0),
        2 => (-beside_one(21 + r.below(4) as i32, r), turns.min(4)),
        _ => (-beside_one(21 + r.below(33) as i32, r), turns),
    }
}
