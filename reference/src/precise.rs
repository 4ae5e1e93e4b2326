//! The time equation itself (Izzo, equations 17, 18 and 21), computed with many more bits than an f64 has.
//! It finds the time from an angle, unlike 01's rule, which uses a hypergeometric series.

use crate::angle::{arccosine, hyperbolic_arccosine, pi};
use crate::fixed::Fixed;
use crate::time::x_of;

/// Returns T at lambda, x = k/2^32 and M whole revolutions: (1/(1 − x²))·((ψ + M·π)/√|1 − x²| − x + λ·y).
/// Near x = 1 the second factor loses about 50 of its 320 bits to cancellation.
pub fn precise_time(lambda: f64, k: i64, m: u16) -> Fixed {
    let (one, lambda, x) = (Fixed::whole(1), Fixed::from_f64(lambda), Fixed::from_f64(x_of(k)));
    let u = one - x * x;
    if u == Fixed::ZERO {
        return parabola(lambda);
    }
    let y = (one - lambda * lambda * u).root();
    let cosine = x * y + lambda * u;
    let psi = if u.is_negative() { hyperbolic_arccosine(cosine) } else { arccosine(cosine) };
    let angle = psi + Fixed::whole(m.into()) * pi();
    (angle / u.abs().root() - x + lambda * y) / u
}

/// Returns the limit of T at x = 1, which is (2/3)·(1 − λ³).
fn parabola(lambda: Fixed) -> Fixed {
    (Fixed::whole(2) * (Fixed::whole(1) - lambda * lambda * lambda)).over(3)
}

/// Returns the relative error of a float against the precise value.
pub fn relative_error(t: f64, precise: Fixed) -> f64 {
    ((Fixed::from_f64(t) - precise) / precise).abs().to_f64()
}

#[cfg(test)]
mod tests {
    use super::*;
    use crate::time::{time_at, PARABOLA};

    fn close(a: Fixed, b: Fixed, within: f64) -> bool {
        (a - b).abs().to_f64() < within
    }

    #[test]
    fn known_times() {
        assert!(close(precise_time(0.0, PARABOLA, 0), Fixed::whole(2).over(3), 1e-90));
        assert!(close(precise_time(0.0, 0, 0), pi().over(2), 1e-80));
        assert!(close(precise_time(0.0, 0, 3), pi().over(2) + pi() * Fixed::whole(3), 1e-80));
        assert!(close(precise_time(-0.5, PARABOLA, 0), Fixed::from_f64(0.75), 1e-90));
    }

    /// On both sides of x = 1 the closed form agrees with the tangent at the limit, which has the slope
    /// dT/dx = (2/5)·(λ⁵ − 1).
    #[test]
    fn the_closed_form_meets_the_parabola() {
        for lambda in [-0.9, -0.5, 0.0, 0.5, 0.9f64] {
            let at = |k| precise_time(lambda, PARABOLA + k, 0);
            let l = Fixed::from_f64(lambda);
            let slope = Fixed::whole(2).over(5) * (l * l * l * l * l - Fixed::whole(1));
            for step in [-1, 1] {
                let tangent = at(0) + slope * Fixed::from_f64(x_of(step));
                assert!(close(at(step), tangent, 1e-18), "{lambda}");
            }
        }
    }

    #[test]
    fn times_are_close_away_from_the_ends() {
        for i in -9..=9 {
            for j in -9..=30 {
                let (lambda, k) = (f64::from(i) / 10.0, i64::from(j) * PARABOLA / 10);
                let t = time_at(lambda, k, 0).unwrap();
                let error = relative_error(t, precise_time(lambda, k, 0));
                assert!(error < 1e-12, "{lambda} {k} {error:e}");
            }
        }
    }
}
