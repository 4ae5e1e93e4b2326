//! Questions as users ask them: every number of revolutions, both ways, many geometries.

use super::shapes::{at_angle, between, direction, frame, power, scale, spread, AXES};
use super::{document, earth};
use crate::entrance::MOST_REVOLUTIONS;
use crate::random::Random;
use crate::wire::{Question, Vector};

/// A body, with the ranges of the radii in km and of the times in s around it.
struct Body {
    mu: f64,
    radii: [f64; 2],
    times: [f64; 2],
}

/// The Earth, from low orbits to the geostationary one; the Sun, with the distances of the planets; and a
/// body with numbers near 1.
const BODIES: [Body; 3] = [
    Body { mu: 398600.4418, radii: [6578.0, 42164.0], times: [60.0, 400000.0] },
    Body { mu: 132712440018.0, radii: [5.8e7, 4.5e9], times: [1e6, 1e9] },
    Body { mu: 1.0, radii: [1.0, 4.0], times: [1.0, 200.0] },
];

pub fn questions(r: &mut Random) -> Vec<Question> {
    let mut all = vec![document(), earth()];
    for _ in 0..8 {
        for (revolutions, way) in ways() {
            let with = |q: Question, r: &mut Random| named(Question { revolutions, way, ..q }, r);
            let made = BODIES.map(|body| around(&body, r));
            all.extend(made.map(|q| with(q, r)));
            let made = [planar(r), anywhere(r), along_axes(r)];
            all.extend(made.map(|q| with(q, r)));
        }
    }
    all
}

/// Returns every number of revolutions with both ways.
fn ways() -> Vec<(u16, u8)> {
    (0..=MOST_REVOLUTIONS).flat_map(|m| [(m, 0), (m, 1)]).collect()
}

fn named(q: Question, r: &mut Random) -> Question {
    Question { job: 1 + r.bits(31) as u32, revision: r.bits(32) as u32, ..q }
}

fn asked(position1: Vector, position2: Vector, mu: f64, time: f64) -> Question {
    Question { position1, position2, mu, time, ..document() }
}

/// Draws a question around the body with two random directions.
fn around(body: &Body, r: &mut Random) -> Question {
    let [low, high] = body.radii;
    let (r1, r2) = (between(r, low, high), between(r, low, high));
    let (p1, p2) = (scale(direction(r), r1), scale(direction(r), r2));
    asked(p1, p2, body.mu, between(r, body.times[0], body.times[1]))
}

/// Draws a transfer by a random angle around the Earth, half of the time in the plane of x and y.
fn planar(r: &mut Random) -> Question {
    let plane = if r.below(2) == 0 { AXES } else { frame(r) };
    let (r1, r2) = (between(r, 6578.0, 42164.0), between(r, 6578.0, 42164.0));
    let t = spread(r, -8, 8);
    asked(at_angle(plane, r1, 0.0), at_angle(plane, r2, t), 398600.4418, between(r, 60.0, 1e6))
}

/// Draws radii, mu and time from anywhere in their ranges.
fn anywhere(r: &mut Random) -> Question {
    let low = r.below(36) as i32;
    let (r1, r2) = (spread(r, low, low + 4), spread(r, low, low + 4));
    let (p1, p2) = (scale(direction(r), r1), scale(direction(r), r2));
    asked(p1, p2, spread(r, 0, 60), spread(r, 0, 40))
}

/// Draws positions on two different axes, on either side of the origin. Their other components are zeros of either sign.
fn along_axes(r: &mut Random) -> Question {
    let first = r.below(3) as usize;
    let second = (first + 1 + r.below(2) as usize) % 3;
    let position = |axis: usize, r: &mut Random| -> Vector {
        let size = power(r.below(12) as i32) * (1 + r.below(4)) as f64;
        let v = std::array::from_fn(|i| if i == axis { size } else { 0.0 });
        v.map(|x: f64| if r.below(2) == 0 { -x } else { x })
    };
    let (p1, p2) = (position(first, r), position(second, r));
    asked(p1, p2, (1 + r.below(1000)) as f64, (1 + r.below(10000)) as f64)
}
