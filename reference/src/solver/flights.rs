//! Questions with positions and mu as users choose them, and with values from the whole of the allowed ranges.

use crate::questions::document;
use crate::questions::shapes::{at_angle, between, direction, frame, power, scale, spread, Frame, AXES};
use crate::random::Random;
use crate::wire::{Question, Vector};

/// The kinds of flights. `Thin` ones have a triangle close to a line, and `Uneven` ones have radii of very different size.
#[derive(Clone, Copy, Debug, PartialEq, Eq)]
pub enum Kind {
    Earth,
    Moon,
    Sun,
    Unit,
    Anywhere,
    Axes,
    Thin,
    Uneven,
}

pub const KINDS: [Kind; 8] =
    [Kind::Earth, Kind::Moon, Kind::Sun, Kind::Unit, Kind::Anywhere, Kind::Axes, Kind::Thin, Kind::Uneven];

pub const MISSIONS: [Kind; 3] = [Kind::Earth, Kind::Moon, Kind::Sun];

const EARTH: f64 = 398600.4418;
const SUN: f64 = 132712440018.0;

/// The ranges of radii in km of low orbits, of navigation orbits and of the geostationary orbit.
const ORBITS: [[f64; 2]; 3] = [[6578.0, 7378.0], [19000.0, 29600.0], [42164.0, 42164.0]];
const LOW: [f64; 2] = ORBITS[0];
const MOON: [f64; 2] = [356400.0, 406700.0];
/// The ranges of radii in km of the planets from Mercury to Saturn.
const PLANETS: [[f64; 2]; 6] = [
    [4.60e7, 6.98e7],
    [1.075e8, 1.089e8],
    [1.471e8, 1.521e8],
    [2.066e8, 2.492e8],
    [7.405e8, 8.166e8],
    [1.3536e9, 1.5130e9],
];

/// Draws a question of the given kind, with a time of 1.
pub fn flight(kind: Kind, revolutions: u16, way: u8, r: &mut Random) -> Question {
    let (mu, [position1, position2]) = match kind {
        Kind::Earth => (EARTH, turned(some(&ORBITS, r), some(&ORBITS, r), r)),
        Kind::Moon => (EARTH, either(turned(LOW, MOON, r), r)),
        Kind::Sun => (SUN, turned(some(&PLANETS, r), some(&PLANETS, r), r)),
        Kind::Unit => (1.0, turned([1.0, 4.0], [1.0, 4.0], r)),
        Kind::Anywhere => (spread(r, 0, 60), anywhere(r)),
        Kind::Axes => ((1 + r.below(1000)) as f64, along_axes(r)),
        Kind::Thin => (EARTH, thin(r)),
        Kind::Uneven => (spread(r, 10, 50), either(uneven(r), r)),
    };
    let (job, revision) = (1 + r.bits(31) as u32, r.bits(32) as u32);
    Question { job, revision, revolutions, way, position1, position2, mu, ..document() }
}

fn some(ranges: &[[f64; 2]], r: &mut Random) -> [f64; 2] {
    ranges[r.below(ranges.len() as u64) as usize]
}

/// Returns the positions in random order.
fn either([a, b]: [Vector; 2], r: &mut Random) -> [Vector; 2] {
    if r.below(2) == 0 {
        [a, b]
    } else {
        [b, a]
    }
}

fn plane(r: &mut Random) -> Frame {
    if r.below(4) == 0 {
        AXES
    } else {
        frame(r)
    }
}

/// Draws radii from two ranges, at an angle between about 2 and 178 degrees.
fn turned(first: [f64; 2], second: [f64; 2], r: &mut Random) -> [Vector; 2] {
    let plane = plane(r);
    let (r1, r2) = (between(r, first[0], first[1]), between(r, second[0], second[1]));
    let t = between(r, 0.02, 1.0);
    let half_tangent = if r.below(2) == 0 { t } else { 1.0 / t };
    [at_angle(plane, r1, 0.0), at_angle(plane, r2, half_tangent)]
}

/// Draws radii from anywhere in their range, less than a factor of 16 apart.
fn anywhere(r: &mut Random) -> [Vector; 2] {
    let low = r.below(36) as i32;
    let (r1, r2) = (spread(r, low, low + 4), spread(r, low, low + 4));
    [scale(direction(r), r1), scale(direction(r), r2)]
}

/// Draws positions on two different axes, on either side of the origin. Their other components are zeros of either sign.
fn along_axes(r: &mut Random) -> [Vector; 2] {
    let first = r.below(3) as usize;
    let second = (first + 1 + r.below(2) as usize) % 3;
    [first, second].map(|axis| {
        let size = power(r.below(12) as i32) * (1 + r.below(4)) as f64;
        let v: Vector = std::array::from_fn(|i| if i == axis { size } else { 0.0 });
        v.map(|x| if r.below(2) == 0 { -x } else { x })
    })
}

/// Draws positions in nearly the same or nearly opposite directions. Often they have no plane or too short a chord.
fn thin(r: &mut Random) -> [Vector; 2] {
    let (plane, t) = (plane(r), spread(r, -22, -4));
    let (r1, r2) = (between(r, 6578.0, 42164.0), between(r, 6578.0, 42164.0));
    let r2 = if r.below(2) == 0 { r2 } else { r1 * (1.0 + spread(r, -12, -6)) };
    let half_tangent = if r.below(2) == 0 { t } else { 1.0 / t };
    [at_angle(plane, r1, 0.0), at_angle(plane, r2, half_tangent)]
}

/// Draws radii of very different size, at angles from nearly 0 to nearly straight.
fn uneven(r: &mut Random) -> [Vector; 2] {
    let low = r.below(10) as i32;
    let (r1, r2) = (spread(r, low, low + 4), spread(r, low + 6, low + 30));
    let (plane, t) = (plane(r), spread(r, -14, 6));
    [at_angle(plane, r1, 0.0), at_angle(plane, r2, t)]
}
