//! The triangle of two positions and the centre (01, Triangle). Every operation is rounded once, in 01's
//! order: parentheses and roots, then products and quotients, then sums and differences.

use crate::wire::Vector;

/// The values of a triangle that 01 keeps together: L, s, c, ρ and σ.
#[derive(Clone, Copy, Debug)]
pub struct Triangle {
    pub lambda: f64,
    pub semiperimeter: f64,
    pub chord: f64,
    pub rho: f64,
    pub sigma: f64,
}

/// Returns q of a vector, the square of its size.
pub fn square(v: Vector) -> f64 {
    (v[0] * v[0] + v[1] * v[1]) + v[2] * v[2]
}

/// Returns position 2 minus position 1.
fn step(p1: Vector, p2: Vector) -> Vector {
    [p2[0] - p1[0], p2[1] - p1[1], p2[2] - p1[2]]
}

/// Returns the chord c. It is computed from the difference of the positions as a radius is from its position.
pub fn chord(p1: Vector, p2: Vector) -> f64 {
    square(step(p1, p2)).sqrt()
}

/// Returns s, half of the sum of the triangle's three sides.
pub fn semiperimeter(r1: f64, r2: f64, chord: f64) -> f64 {
    ((r1 + r2) + chord) / 2.0
}

/// Returns the cross product, which is h for the two positions. Each component is one difference of two products.
pub fn cross(a: Vector, b: Vector) -> Vector {
    [a[1] * b[2] - a[2] * b[1], a[2] * b[0] - a[0] * b[2], a[0] * b[1] - a[1] * b[0]]
}

/// Returns ρ = (r1 − r2)/c.
pub fn rho(r1: f64, r2: f64, chord: f64) -> f64 {
    (r1 - r2) / chord
}

/// Returns 1 − ρ·ρ, the square of σ.
pub fn sigma_square(rho: f64) -> f64 {
    1.0 - rho * rho
}

/// Returns 1 − c/s, the square of lambda. If it is below 0, `lambda` uses 0 instead.
pub fn lambda_square(chord: f64, s: f64) -> f64 {
    1.0 - chord / s
}

/// Returns L, which is negated for the long way.
pub fn lambda(chord: f64, s: f64, long: bool) -> f64 {
    let operand = lambda_square(chord, s);
    let size = if operand < 0.0 { 0.0 } else { operand }.sqrt();
    if long {
        -size
    } else {
        size
    }
}

/// Returns the wanted time T*.
pub fn wanted_time(mu: f64, s: f64, time: f64) -> f64 {
    ((2.0 * mu) / ((s * s) * s)).sqrt() * time
}

/// Divides each component of a vector by the vector's size.
pub fn unit(v: Vector, size: f64) -> Vector {
    v.map(|x| x / size)
}

/// Returns n = h/√hh, negated for the long way.
pub fn normal(h: Vector, hh: f64, long: bool) -> Vector {
    let n = unit(h, hh.sqrt());
    if long {
        n.map(|x| -x)
    } else {
        n
    }
}

#[cfg(test)]
mod tests {
    use super::*;

    /// The sides 3, 4 and 5 give s = 6, L = −√(1/6) for the long way, and ρ = −1/5. With mu = 108 and a
    /// time of 7, T* is √(2·108/216)·7.
    #[test]
    fn a_right_triangle() {
        let (p1, p2) = ([3.0, 0.0, 0.0], [0.0, 0.0, 4.0]);
        let c = chord(p1, p2);
        let s = semiperimeter(3.0, 4.0, c);
        assert_eq!((c, s), (5.0, 6.0));
        assert_eq!(lambda(c, s, true), -(1.0 - 5.0f64 / 6.0).sqrt());
        assert_eq!(rho(3.0, 4.0, c), -0.2);
        assert_eq!(wanted_time(108.0, s, 7.0), 7.0);
        assert_eq!(normal(cross(p1, p2), 144.0, false), [0.0, -1.0, 0.0]);
        assert_eq!(normal(cross(p1, p2), 144.0, true), [0.0, 1.0, 0.0]);
    }

    #[test]
    fn a_chord_above_the_semiperimeter_gives_a_zero_lambda() {
        assert_eq!(lambda(1.0 + f64::EPSILON, 1.0, false).to_bits(), 0.0f64.to_bits());
        assert_eq!(lambda(1.0 + f64::EPSILON, 1.0, true).to_bits(), (-0.0f64).to_bits());
    }
}
