//! Places where a divisor is zero. For L = −1 + g, with a small g, and x below 0, η is about g/|x|. If x·η is exactly
//! −g, then C1 is zero. So g must be a multiple of 2^-53 times the odd part of k.

use super::Place;
use crate::random::{pick, Random};
use crate::time::{LOWEST, MOST_TURNS};

/// About the largest g at which a station is void, in units of 2^-53. It is near 2^-20.4.
const WIDEST: u64 = 6_640_000_000;

/// How many lambdas are drawn. Each has three places.
const LAMBDAS: usize = 2_000;

/// Returns drawn places and those beside them: the next lambda with the same k, and the next k with the same lambda.
pub fn places(r: &mut Random) -> Vec<Place> {
    (0..LAMBDAS).flat_map(|_| beside(place(r), r)).collect()
}

fn beside(p: Place, r: &mut Random) -> [Place; 3] {
    let lambda = p.lambda.wrapping_add_signed(pick(&[-1, 1], r));
    let k = (p.k + pick(&[-1, 1], r)).max(LOWEST);
    [p, Place { lambda, ..p }, Place { k, ..p }]
}

/// Draws a place below x = 0, often close to the lowest one, with up to 31 zeros at the end of k, and a lambda for it.
pub fn place(r: &mut Random) -> Place {
    let lowest = LOWEST.unsigned_abs();
    let size = lowest - (r.below(lowest) >> r.below(32));
    let zeros = r.below(32) >> r.below(6);
    let k = -((size >> zeros).max(1) as i64) << zeros;
    let m = if r.below(2) == 0 { 0 } else { r.below(u64::from(MOST_TURNS) + 1) as u16 };
    Place::new(lambda(k, r), k, m)
}

/// Draws a lambda close to −1 for which C1 is often zero at the place k, which is below 0.
pub fn lambda(k: i64, r: &mut Random) -> f64 {
    let odd = k.unsigned_abs() >> k.trailing_zeros();
    let most = (WIDEST / odd) >> r.below(34);
    beside_minus_one(odd * (1 + r.below(most.max(1))))
}

/// Draws such a lambda with a g from an eighth of the largest one on, where few stations are void.
pub fn wide_lambda(k: i64, r: &mut Random) -> f64 {
    let odd = k.unsigned_abs() >> k.trailing_zeros();
    let most = WIDEST / odd;
    beside_minus_one(odd * (most - r.below(most - most / 8)))
}

/// Returns the lambda that is the given number of units of 2^-53 above −1.
pub fn beside_minus_one(units: u64) -> f64 {
    f64::from_bits((-1f64).to_bits() - units)
}

#[cfg(test)]
mod tests {
    use super::*;
    use crate::time::{time, Void};

    #[test]
    fn units_above_minus_1() {
        assert_eq!(beside_minus_one(1), -1.0 + 2f64.powi(-53));
        assert_eq!(beside_minus_one(4_095), -1.0 + 4_095.0 * 2f64.powi(-53));
        assert_eq!(beside_minus_one(WIDEST), -1.0 + WIDEST as f64 * 2f64.powi(-53));
    }

    /// Many of the drawn places have a zero divisor, at odd k too.
    #[test]
    fn zero_divisors_occur() {
        let mut r = Random::new(1);
        let all: Vec<Place> = (0..2_000).map(|_| place(&mut r)).collect();
        let zero = |p: &&Place| time(f64::from_bits(p.lambda), p.k, p.m) == Err(Void::Divisor);
        let zeros: Vec<&Place> = all.iter().filter(zero).collect();
        let odd = zeros.iter().filter(|p| p.k % 2 != 0).count();
        println!("{} zero divisors of 2000, {odd} with an odd k", zeros.len());
        assert!(zeros.len() > 700 && odd > 10);
    }
}
