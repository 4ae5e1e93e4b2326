//! Triangles that nearly have no plane, too short a chord or no height: numbers 8, 9 and 10.

use super::earth;
use super::edges::edge;
use super::shapes::{at_angle, between, direction, frame, power, scale, spread, Frame, AXES};
use crate::random::Random;
use crate::wire::{Question, Vector};

fn asked(position1: Vector, position2: Vector, way: u8) -> Question {
    Question { position1, position2, way, ..earth() }
}

fn some_frame(r: &mut Random) -> Frame {
    if r.below(4) == 0 {
        AXES
    } else {
        frame(r)
    }
}

/// Returns equal, collinear and opposite positions, which have no plane, and questions at the edge of number 8.
pub fn planes(r: &mut Random) -> Vec<Question> {
    let mut all = vec![asked([1.0, 0.0, 0.0], [2.0, 0.0, 0.0], 0)];
    for factor in [1.0, 2.0, -1.0, -2.0, 0.5, 3.0, -1.1, 1000.0, 1.0 + power(-12)] {
        all.push(asked([2.0, 0.0, 0.0], [2.0 * factor, 0.0, 0.0], 0));
        for way in [0, 1, 0, 1] {
            let size = spread(r, 2, 28);
            let p = scale(direction(r), size);
            all.push(asked(p, scale(p, factor), way));
        }
    }
    for i in 0..70 {
        all.extend(plane_edge(r, i % 2));
    }
    all.extend(plane_ties());
    all
}

/// Returns questions around the angle at which number 8 stops applying, near 0 or near a straight angle.
fn plane_edge(r: &mut Random, way: u8) -> Vec<Question> {
    let f = some_frame(r);
    let low = r.below(30) as i32;
    let (r1, r2) = (spread(r, low, low + 6), spread(r, low, low + 6));
    let side = if r.below(2) == 0 { 1.0 } else { -1.0 };
    let p1 = at_angle(f, r1, 0.0);
    edge(power(-24), power(-18), |t| asked(p1, scale(at_angle(f, r2, t), side), way))
}

/// Returns questions with powers of two, for which hh can equal its bound exactly.
fn plane_ties() -> Vec<Question> {
    let at = |a: f64, x: f64, y: f64| asked([a, 0.0, 0.0], [x, y, 0.0], 0);
    let pairs = [(1.0, 2.0), (1.0, power(20)), (power(10), power(12)), (power(3), -power(9))];
    pairs
        .iter()
        .flat_map(|&(a, x)| edge(power(-23) * x.abs(), power(-17) * x.abs(), |y| at(a, x, y)))
        .collect()
}

/// Returns questions with short chords, and questions at the edge of number 9, found by varying the angle
/// and the second radius.
pub fn chords(r: &mut Random) -> Vec<Question> {
    let mut all = Vec::new();
    for i in 0..50 {
        let f = some_frame(r);
        let r1 = spread(r, 1, 38);
        let p1 = at_angle(f, r1, 0.0);
        let way = i % 2;
        let near = r1 * (1.0 + spread(r, -16, -11) * if r.below(2) == 0 { 1.0 } else { -1.0 });
        all.extend(edge(power(-19), power(-8), |t| asked(p1, at_angle(f, near, t), way)));
        let t = spread(r, -16, -12);
        all.extend(edge(r1 * (1.0 + power(-14)), r1 * 1.01, |r2| asked(p1, at_angle(f, r2, t), way)));
        all.extend(edge(r1 * 0.99, r1 * (1.0 - power(-14)), |r2| asked(p1, at_angle(f, r2, t), way)));
        all.push(asked(p1, at_angle(f, r1, t), way));
        all.push(asked(p1, at_angle(f, r1 * (1.0 + spread(r, -18, -12)), t), way));
    }
    all
}

/// Draws a small and a large radius, in either order.
fn uneven(r: &mut Random, low: i32) -> (f64, f64) {
    let (small, large) = (between(r, 1.0, 4.0), spread(r, low, 40));
    if r.below(2) == 0 {
        (small, large)
    } else {
        (large, small)
    }
}

/// Returns flat triangles, which have radii of very different size at a small angle, and questions at the
/// edges of number 10.
pub fn flats(r: &mut Random) -> Vec<Question> {
    let mut all = Vec::new();
    for way in 0..2 {
        for _ in 0..150 {
            let f = some_frame(r);
            let (r1, r2) = uneven(r, 20);
            let t = spread(r, -20, -2);
            all.push(asked(at_angle(f, r1, 0.0), at_angle(f, r2, t), way));
        }
        for _ in 0..30 {
            let f = some_frame(r);
            let (r1, r2) = uneven(r, 28);
            let p1 = at_angle(f, r1, 0.0);
            all.extend(edge(power(-19), power(0), |t| asked(p1, at_angle(f, r2, t), way)));
            all.extend(edge(power(-24), power(-18), |t| asked(p1, at_angle(f, r2, t), way)));
        }
    }
    all
}

/// Returns positions with different radii at nearly a straight angle, where 1 − c/s can round to 0 or below.
pub fn opposites(r: &mut Random) -> Vec<Question> {
    let one = |way: u8, r: &mut Random| {
        let f = some_frame(r);
        let (r1, r2) = uneven(r, 2);
        let t = spread(r, -20, -10);
        asked(at_angle(f, r1, 0.0), scale(at_angle(f, r2, t), -1.0), way)
    };
    (0..200).map(|i| one(i % 2, r)).collect()
}
