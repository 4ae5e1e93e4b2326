//! Circular and hyperbolic angles from their cosines, to about 300 bits.

use crate::fixed::Fixed;
use std::sync::OnceLock;

/// Which functions are computed: arctan or artanh.
#[derive(Clone, Copy, PartialEq, Eq)]
enum Kind {
    Circular,
    Hyperbolic,
}

/// Returns π = 16·arctan(1/5) − 4·arctan(1/239) (Machin's formula). The value is computed once and kept.
pub fn pi() -> Fixed {
    static PI: OnceLock<Fixed> = OnceLock::new();
    let part = |n: u32| arctangent(Fixed::whole(1).over(n), Kind::Circular);
    *PI.get_or_init(|| Fixed::whole(16) * part(5) - Fixed::whole(4) * part(239))
}

/// Returns the angle ψ from 0 to π that has the given cosine. It is found from the tangent of its half,
/// (sin ψ)/(1 + cos ψ). If the cosine is negative, the angle is π minus the angle of the negated cosine.
pub fn arccosine(cosine: Fixed) -> Fixed {
    if cosine.is_negative() {
        return pi() - arccosine(-cosine);
    }
    let one = Fixed::whole(1);
    let sine = (one - cosine * cosine).root();
    Fixed::whole(2) * arctangent(sine / (one + cosine), Kind::Circular)
}

/// Returns the hyperbolic angle that has the given cosine, which is at least 1. It is found from the
/// hyperbolic tangent of its half in the same way.
pub fn hyperbolic_arccosine(cosine: Fixed) -> Fixed {
    let one = Fixed::whole(1);
    let sine = (cosine * cosine - one).root();
    Fixed::whole(2) * arctangent(sine / (one + cosine), Kind::Hyperbolic)
}

/// Returns arctan t or artanh t, for t from 0 to 1 (below 1 for artanh). Replacing t by t/(1 + √(1 ± t²))
/// halves the angle. Eight of these halvings make t so small that the series needs few terms.
fn arctangent(t: Fixed, kind: Kind) -> Fixed {
    const HALVINGS: u32 = 8;
    let one = Fixed::whole(1);
    let mut t = t;
    for _ in 0..HALVINGS {
        let square = if kind == Kind::Circular { t * t } else { -(t * t) };
        t = t / (one + (one + square).root());
    }
    series(t, kind) * Fixed::whole(1 << HALVINGS)
}

/// Sums t ∓ t³/3 + t⁵/5 ∓ … (minus signs for arctan, plus signs for artanh) until the power of t vanishes.
fn series(t: Fixed, kind: Kind) -> Fixed {
    let ratio = if kind == Kind::Circular { -(t * t) } else { t * t };
    let (mut power, mut total, mut n) = (t, Fixed::ZERO, 1);
    while power != Fixed::ZERO {
        total = total + power.over(n);
        power = power * ratio;
        n += 2;
    }
    total
}

#[cfg(test)]
mod tests {
    use super::*;

    const CLOSE: f64 = 1e-80;

    fn close(a: Fixed, b: Fixed) -> bool {
        (a - b).abs().to_f64() < CLOSE
    }

    /// The first 63 digits of π after the decimal point, in groups of nine.
    #[test]
    fn pi_is_known() {
        let digits = [3u32, 141592653, 589793238, 462643383, 279502884, 197169399, 375105820, 974944592];
        let billion = 1_000_000_000;
        let known = digits.iter().rev().fold(Fixed::ZERO, |rest, &d| rest.over(billion) + Fixed::whole(d));
        assert!((pi() - known).abs().to_f64() < 1e-63);
    }

    #[test]
    fn angles_of_known_cosines() {
        let half = Fixed::from_f64(0.5);
        assert!(close(arccosine(half), pi().over(3)));
        assert!(close(arccosine(-half), pi().over(3) * Fixed::whole(2)));
        assert!(close(arccosine(Fixed::ZERO), pi().over(2)));
        assert!(close(arccosine(half.root()), pi().over(4)));
    }

    /// The hyperbolic angle of (e + 1/e)/2 is 1. The test computes e from its own series.
    #[test]
    fn a_known_hyperbolic_angle() {
        let mut term = Fixed::whole(1);
        let mut e = term;
        for n in 1..100 {
            term = term.over(n);
            e = e + term;
        }
        let cosine = (e + Fixed::whole(1) / e).over(2);
        assert!(close(hyperbolic_arccosine(cosine), Fixed::whole(1)));
    }
}
