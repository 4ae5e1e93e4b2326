//! Questions on both sides of the point where a verdict changes, as close to it as floats allow.

use super::document;
use super::shapes::{between, power};
use crate::entrance::{judge, ROOM};
use crate::random::Random;
use crate::wire::{Question, Vector};

/// Bisects the floats between two positive values of one number until the verdict changes between two
/// neighbouring floats. Returns the questions for these two and for their outer neighbours. Returns none if
/// the verdicts at both values are the same.
pub fn edge(from: f64, to: f64, make: impl Fn(f64) -> Question) -> Vec<Question> {
    let at = |b: u64| make(f64::from_bits(b));
    let number = |b: u64| judge(&at(b).write(), ROOM).err();
    let (mut a, mut b) = (from.to_bits(), to.to_bits());
    let start = number(a);
    if start == number(b) {
        return Vec::new();
    }
    while b - a > 1 {
        let middle = a + (b - a) / 2;
        if number(middle) == start {
            a = middle;
        } else {
            b = middle;
        }
    }
    [a.saturating_sub(1), a, b, b + 1].map(at).into()
}

/// Returns questions at the limits of the radius, 1 and 2^40, for either position: along each axis, in each
/// plane of two axes, and with all three components.
pub fn radii(r: &mut Random) -> Vec<Question> {
    let mut all = Vec::new();
    for axis in 0..3 {
        for second in [false, true] {
            for (size, other) in [(1.0, 2.0), (power(40), power(39))] {
                let with = |v: Vector| pair(turn(v, axis), turn([0.0, 0.0, -other], axis), second);
                all.extend(edge(size / 2.0, size * 1.5, |x| with([x, 0.0, 0.0])));
                all.extend(edge(size / power(30), size, |y| with([size, y, 0.0])));
                for share in [0.25, 0.6, 0.9, between(r, 0.1, 0.99), between(r, 0.1, 0.99)] {
                    let (x, z) = (share * size, between(r, 0.1, 0.4) * size);
                    all.extend(edge(size / 64.0, size, |y| with([x, y, 0.0])));
                    all.extend(edge(size / 64.0, size, |y| with([x, y, z])));
                }
            }
        }
    }
    all
}

/// Shifts the components cyclically by `by` axes.
fn turn(v: Vector, by: usize) -> Vector {
    std::array::from_fn(|i| v[(i + 3 - by) % 3])
}

/// Returns a question with `position` as its first or second position, and `other` as the other one.
fn pair(position: Vector, other: Vector, second: bool) -> Question {
    let (position1, position2) = if second { (other, position) } else { (position, other) };
    Question { position1, position2, ..document() }
}
