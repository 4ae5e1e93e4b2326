//! Sweeps with void stations, for lambdas and M in range. All of these stations have x below 0, and lambda is close to
//! −1. The sweeps differ in where the first void station is, why it is void, whether others are void too, and which
//! crossings are below and above it.

use super::curve::{Curve, ODD};
use super::lambdas::beside_one;
use super::Case;
use crate::places::zero_divisors;
use crate::random::{pick, Random};
use crate::sweep::{changes, PLACES};
use crate::time::{Void, LOWEST, MOST_TURNS, SPACING};
use std::collections::BTreeMap;

/// How many sweeps of each shape are kept, and how many curves are searched.
const KEPT: usize = 3;
const CURVES: u32 = 2_000;

/// Where the void stations of a sweep are.
#[derive(Clone, Copy, Debug, PartialEq, Eq, PartialOrd, Ord)]
pub struct Shape {
    /// The number of crossings. It is 9 if there are more than eight.
    pub crossings: usize,
    /// The number of the first void station's reason, and whether it is the first station.
    pub reason: u16,
    pub at_first: bool,
    pub others: Others,
    /// Whether one of the first nine crossings is below the first void station, and whether one is above it.
    pub below: bool,
    pub above: bool,
}

/// The void stations after the first one: none, all with the same reason as the first, or some with another reason.
#[derive(Clone, Copy, Debug, PartialEq, Eq, PartialOrd, Ord)]
pub enum Others {
    Nowhere,
    Alike,
    Different,
}

/// Returns the shape of a sweep, or None if no station is void.
pub fn shape(times: &[Result<f64, Void>], wanted: f64) -> Option<Shape> {
    let void: Vec<(usize, Void)> =
        times.iter().enumerate().filter_map(|(i, time)| Some((i, time.err()?))).collect();
    let &(first, reason) = void.first()?;
    let others = match void.iter().any(|v| v.1 != reason) {
        true => Others::Different,
        false if void.len() > 1 => Others::Alike,
        false => Others::Nowhere,
    };
    let found: Vec<usize> = changes(times, wanted).take(PLACES + 1).collect();
    Some(Shape {
        crossings: found.len(),
        reason: reason.number(),
        at_first: first == 0,
        others,
        below: found.iter().any(|&i| i < first),
        above: found.iter().any(|&i| i > first),
    })
}

/// Returns sweeps of as many shapes as the search finds.
pub fn cases(r: &mut Random) -> Vec<Case> {
    let mut found: BTreeMap<Shape, Vec<Case>> = BTreeMap::new();
    for i in 0..CURVES {
        let (lambda, m) = (lambda(i, r), turns(i, r));
        let curve = Curve::new(lambda, m);
        for (wanted, shape) in shapes(&curve, r) {
            let same = found.entry(shape).or_default();
            if same.len() < KEPT {
                same.push(Case::new(lambda, wanted, m));
            }
        }
    }
    found.into_values().flatten().collect()
}

/// Draws wanted times for a curve, most of them near the times of stations, and returns them with their shapes.
fn shapes(curve: &Curve, r: &mut Random) -> Vec<(f64, Shape)> {
    let wanted = (0..20).map(|n| match n % 5 {
        0 => curve.any(r),
        1 => curve.peak(r),
        2 => curve.low(r),
        3 => curve.before_void(r),
        _ => pick(&ODD, r),
    });
    wanted.filter_map(|wanted| Some((wanted, curve.shape(wanted)?))).collect()
}

/// Draws a lambda close to −1. Half of them make a divisor zero at one of the lower stations. For one in four few
/// stations are void.
fn lambda(i: u32, r: &mut Random) -> f64 {
    let station = LOWEST + (r.below(4_095) >> r.below(12)) as i64 * SPACING;
    match i % 4 {
        0 => -beside_one(21 + r.below(33) as i32, r),
        1 => -beside_one(20 + r.below(3) as i32, r),
        2 => zero_divisors::lambda(station, r),
        _ => zero_divisors::wide_lambda(station, r),
    }
}

fn turns(i: u32, r: &mut Random) -> u16 {
    if i.is_multiple_of(3) {
        0
    } else {
        1 + r.below(u64::from(MOST_TURNS)) as u16
    }
}
