//! Numbers, directions and angles for questions. They use only sums, differences, products, quotients and
//! square roots, so their bits don't depend on the machine.

use crate::random::Random;
use crate::triangle::{cross, square, unit};
use crate::wire::Vector;

/// Returns 2^e, for an e that gives a normal number.
pub fn power(e: i32) -> f64 {
    f64::from_bits(((1023 + e) as u64) << 52)
}

/// Draws a number from 2^low to below 2^high. All exponents are equally likely.
pub fn spread(r: &mut Random, low: i32, high: i32) -> f64 {
    let e = low + r.below((high - low) as u64) as i32;
    power(e) * (1.0 + r.fraction())
}

/// Draws a number between two values.
pub fn between(r: &mut Random, low: f64, high: f64) -> f64 {
    low + (high - low) * r.fraction()
}

pub fn scale(v: Vector, by: f64) -> Vector {
    v.map(|x| x * by)
}

/// Two unit vectors at right angles.
#[derive(Clone, Copy, Debug)]
pub struct Frame(pub Vector, pub Vector);

/// The frame of the x and y axes, in which positions have few digits.
pub const AXES: Frame = Frame([1.0, 0.0, 0.0], [0.0, 1.0, 0.0]);

/// Draws a random unit vector.
pub fn direction(r: &mut Random) -> Vector {
    loop {
        let v = [between(r, -1.0, 1.0), between(r, -1.0, 1.0), between(r, -1.0, 1.0)];
        if square(v) > 0.01 {
            return unit(v, square(v).sqrt());
        }
    }
}

/// Draws a random frame.
pub fn frame(r: &mut Random) -> Frame {
    loop {
        let (first, other) = (direction(r), direction(r));
        let n = cross(first, other);
        if square(n) > 0.01 {
            return Frame(first, unit(n, square(n).sqrt()));
        }
    }
}

/// Returns the position at the distance `radius` and at an angle from the frame's first vector. `t` is the
/// tangent of half that angle.
pub fn at_angle(frame: Frame, radius: f64, t: f64) -> Vector {
    let (cosine, sine) = ((1.0 - t * t) / (1.0 + t * t), 2.0 * t / (1.0 + t * t));
    std::array::from_fn(|i| radius * (cosine * frame.0[i] + sine * frame.1[i]))
}
