//! Floats for the numbers of an orbit message, most of them near a corner of the rounding or of the range.

use crate::random::{pick, Random};

/// The sizes that are out of range begin here.
const BOUND: f64 = 1e7;

/// The number of exponents that a float below the bound can have, as its bits have them: 0 to 1046.
const EXPONENTS: u64 = 1047;

/// A way to draw a float that isn't negative.
type Sort = fn(&mut Random) -> f64;

/// Floats below 10^7. Some sorts give a larger one now and then, which is not used.
const SMALL: [Sort; 15] = [
    tie,
    |r| neighbour(tie(r), r),
    |r| neighbour(near_tie(r), r),
    |r| neighbour((r.below(4) as f64 + 0.5) * 1e-9, r),
    |r| f64::from_bits(r.bits(52)),
    |r| f64::from_bits(pick(&[1, 2, (1 << 52) - 1, 1 << 52], r)),
    |_| 0.0,
    |r| below_bound(r.below(5)),
    |r| r.below(10_000_000) as f64,
    |r| f64::next_down((1 + r.below(10_000_000)) as f64),
    |r| neighbour(10f64.powi(r.below(32) as i32 - 24), r),
    |r| with_exponent(r.below(EXPONENTS), r),
    |r| with_exponent(EXPONENTS - 1 - r.below(54), r),
    |r| r.bits(53) as f64 * 1e-9,
    |r| r.fraction() * 10f64.powi(r.below(8) as i32),
];

/// Floats that are out of range.
const LARGE: [Sort; 5] = [
    |r| f64::from_bits(BOUND.to_bits() + r.below(4)),
    |r| f64::from_bits(f64::INFINITY.to_bits() - r.below(2)),
    |r| f64::from_bits(f64::INFINITY.to_bits() + pick(&[1, 1 << 51, 1 + r.bits(51)], r)),
    |r| f64::from_bits((1047 + r.below(1000)) << 52 | r.bits(52)),
    |r| pick(&[2f64.powi(24), 2f64.powi(53), 2f64.powi(63), 2f64.powi(64), 1e8, 1e16, f64::MAX], r),
];

/// Draws a float with a size below 10^7, of either sign.
pub fn small(r: &mut Random) -> f64 {
    let sort = pick(&SMALL, r);
    loop {
        let size = sort(r);
        if size < BOUND {
            return signed(size, r);
        }
    }
}

/// Draws a float that isn't finite or has a size of 10^7 or more, of either sign.
pub fn large(r: &mut Random) -> f64 {
    let size = pick(&LARGE, r)(r);
    signed(size, r)
}

/// Draws a float with a size below 10^7 for number `i` of a list. In a list of 1047 numbers or more, every
/// exponent occurs.
pub fn in_turn(i: u64, r: &mut Random) -> f64 {
    signed(with_exponent(i % EXPONENTS, r), r)
}

/// Draws a positive float below 10^7 with the given exponent.
fn with_exponent(exponent: u64, r: &mut Random) -> f64 {
    loop {
        let size = f64::from_bits(exponent << 52 | r.bits(52));
        if size < BOUND {
            return size;
        }
    }
}

fn signed(size: f64, r: &mut Random) -> f64 {
    f64::from_bits(size.to_bits() | r.below(2) << 63)
}

/// Draws an odd multiple of 2^-10 below 10^7. These are exactly the floats halfway between two numbers with
/// nine decimals.
fn tie(r: &mut Random) -> f64 {
    let most = pick(&[8, 1 << 10, 1 << 20, 5_120_000_000], r);
    (2 * r.below(most) + 1) as f64 / 1024.0
}

/// Draws the float nearest to a number halfway between two numbers with nine decimals, which is mostly not a
/// float.
fn near_tie(r: &mut Random) -> f64 {
    let digits = r.below(17) as u32;
    (r.below(10u64.pow(digits)) as f64 + 0.5) / 1e9
}

/// Returns a positive float or one of its two neighbours.
fn neighbour(x: f64, r: &mut Random) -> f64 {
    f64::from_bits(x.to_bits() + r.below(3) - 1)
}

/// Returns one of the largest floats below 10^7.
fn below_bound(steps: u64) -> f64 {
    f64::from_bits(BOUND.to_bits() - 1 - steps)
}

#[cfg(test)]
mod tests {
    use super::*;
    use crate::opm::Decimal;

    /// Each sort gives floats that the writer takes, and nearly never another.
    #[test]
    fn sizes_are_in_range() {
        let mut r = Random::new(32);
        for sort in SMALL {
            let sizes: Vec<f64> = (0..1000).map(|_| sort(&mut r)).collect();
            assert!(sizes.iter().all(|size| size.is_sign_positive()));
            assert!(sizes.iter().filter(|&&size| size < BOUND).count() > 500);
        }
        assert!((0..5000).all(|_| Decimal::nearest(small(&mut r)).is_some()));
        assert!((0..5000).all(|_| Decimal::nearest(large(&mut r)).is_none()));
    }

    /// The corners occur: ties, both signs of zero, negative numbers that round to zero, and the largest
    /// float below 10^7.
    #[test]
    fn corners_occur() {
        let mut r = Random::new(33);
        let all: Vec<f64> = (0..20_000).map(|_| small(&mut r)).collect();
        let count = |is: &dyn Fn(f64) -> bool| all.iter().filter(|&&x| is(x)).count();
        let ties = count(&|x| (x * 1024.0) % 2.0 != 0.0 && (x * 1024.0).fract() == 0.0);
        let zeros = count(&|x| x == 0.0 && x.is_sign_negative());
        let tiny = count(&|x| x < 0.0 && !Decimal::nearest(x).unwrap().negative);
        let last = count(&|x| x.abs() == f64::next_down(BOUND));
        let subnormal = count(&|x| x.is_subnormal());
        println!(
            "{ties} ties, {zeros} times -0, {tiny} round to zero, {last} largest, {subnormal} subnormal"
        );
        assert!(ties > 1000 && zeros > 300 && tiny > 1000 && last > 100 && subnormal > 1000);
    }

    #[test]
    fn every_exponent_occurs_in_turn() {
        let mut r = Random::new(34);
        let all = (0..EXPONENTS).map(|i| in_turn(i, &mut r));
        assert!(all.enumerate().all(|(i, x)| x.abs() < BOUND && x.to_bits() >> 52 & 2047 == i as u64));
        assert!(f64::from_bits(EXPONENTS << 52) > BOUND);
    }
}
