//! Places out of range at which a later step would fail too. Step 1 comes first.

use super::ends::turns;
use super::zero_divisors;
use super::Place;
use crate::random::{pick, Random};
use crate::time::{HIGHEST, LOWEST, MOST_TURNS, PARABOLA, SPACING};

/// How many places there are of each sort.
const EACH: usize = 400;

pub fn places(r: &mut Random) -> Vec<Place> {
    let sorts = [too_many_turns, too_low, no_ellipse, not_below_1];
    sorts.iter().flat_map(|sort| (0..EACH).map(|_| sort(r)).collect::<Vec<_>>()).collect()
}

/// Draws a place with a zero divisor or a refused root, and too many whole revolutions.
fn too_many_turns(r: &mut Random) -> Place {
    let too_many: Vec<u16> = turns().filter(|&m| m > MOST_TURNS).collect();
    Place { m: pick(&too_many, r), ..zero_divisors::place(r) }
}

/// Draws a k from −2^32 to the lowest one, which is left out.
fn too_low(r: &mut Random) -> Place {
    let k = LOWEST - 1 - (r.below(SPACING as u64) >> r.below(20)) as i64;
    Place::new(zero_divisors::lambda(k, r), k, pick(&[0, 0, 1, MOST_TURNS], r))
}

/// Draws a place with whole revolutions at x = 1, where u is zero, or above it, where u is below zero.
fn no_ellipse(r: &mut Random) -> Place {
    let beyond = (r.below((HIGHEST - PARABOLA) as u64) >> r.below(40)) as i64;
    let m = 1 + r.below(u64::from(MOST_TURNS)) as u16;
    Place { k: PARABOLA + beyond, m, ..zero_divisors::place(r) }
}

/// Draws a lambda of −1 or beyond, where C1 is zero or y has no root for many k.
fn not_below_1(r: &mut Random) -> Place {
    let p = zero_divisors::place(r);
    let beyond = r.bits(54) >> r.below(55);
    Place { lambda: (-1f64).to_bits() + beyond, ..p }
}

#[cfg(test)]
mod tests {
    use super::*;
    use crate::time::{time, Void};

    #[test]
    fn the_range_comes_first() {
        let all = places(&mut Random::new(1));
        let reason = |p: &Place| time(f64::from_bits(p.lambda), p.k, p.m);
        assert!(all.iter().all(|p| reason(p) == Err(Void::Range)));
    }

    /// With a permitted number of revolutions, most places of the first sort are void for a later reason.
    #[test]
    fn a_later_reason_would_apply() {
        let mut r = Random::new(2);
        let others = (0..EACH).map(|_| too_many_turns(&mut r)).filter(|p| {
            let reason = time(f64::from_bits(p.lambda), p.k, 0);
            matches!(reason, Err(Void::Root | Void::Divisor))
        });
        assert!(others.count() > EACH / 2);
    }
}
