//! The square root, computed by the hardware, and the operands on which it is compared.

use crate::random::Random;

/// Represents a refused root. It is the pattern of a NaN, which no root has.
pub const REFUSED: u64 = u64::MAX;

/// Returns the bits of the square root of the f64 with the bits `b`. The root of a zero is that same zero, with its
/// sign. The root of a positive finite number is the nearest f64. Negative numbers, infinities and NaN are refused.
pub fn root_bits(b: u64) -> u64 {
    let x = f64::from_bits(b);
    if x == 0.0 || (x > 0.0 && x.is_finite()) {
        x.sqrt().to_bits()
    } else {
        REFUSED
    }
}

const SIGN: u64 = 1 << 63;
const INFINITY: u64 = 0x7FF0_0000_0000_0000;
const GREATEST: u64 = INFINITY - 1;
const LEAST_NORMAL: u64 = 1 << 52;

/// Returns every operand of the comparison, in a fixed order.
pub fn operands() -> Vec<u64> {
    let mut r = Random::new(2);
    let mut all = ends();
    all.extend(powers_of_two());
    all.extend(every_exponent(&mut r));
    all.extend(near_squares(&mut r));
    all.extend(near_middles(&mut r));
    all.extend((0..1500).map(|i| r.bits(1 + i % 52)));
    all.extend((0..1500).map(|_| SIGN | r.bits(63)));
    all.extend((0..500).map(|i| INFINITY | ((i & 1) << 63) | (1 + r.bits(51))));
    all.extend((0..2000).map(|_| r.word()));
    all
}

/// Returns the zeros, 1, the ends of each range of bit patterns, and their neighbours, with both signs.
fn ends() -> Vec<u64> {
    let one = 1f64.to_bits();
    let around = [0, 1, 2, LEAST_NORMAL, one, GREATEST, INFINITY, INFINITY | (1 << 51), SIGN - 1];
    let near = around.iter().flat_map(|&b| [b.wrapping_sub(1) & (SIGN - 1), b, (b + 1) & (SIGN - 1)]);
    near.flat_map(|b| [b, b | SIGN]).collect()
}

/// Returns 2^-1074 to 2^1023.
fn powers_of_two() -> Vec<u64> {
    let subnormal = (0..52).map(|i| 1u64 << i);
    let normal = (1..2047).map(|e| e << 52);
    subnormal.chain(normal).collect()
}

/// Returns six numbers for each exponent field: the least above the power of two, the greatest, and four random ones.
fn every_exponent(r: &mut Random) -> Vec<u64> {
    (0..2047u64)
        .flat_map(|e| {
            let base = e << 52;
            let inside = [r.bits(52), r.bits(52), r.bits(52), r.bits(52)];
            [base | 1, base | (LEAST_NORMAL - 1)].into_iter().chain(inside.map(|t| base | t))
        })
        .collect()
}

/// Multiplies a number by a random power of four, and keeps it a normal f64.
fn times_power_of_four(x: f64, r: &mut Random) -> u64 {
    let exponent = (x.to_bits() >> 52) as i64;
    let steps = r.bits(9) as i64 - 256;
    let shifted = (exponent + 2 * steps).clamp(1 + exponent % 2, 2044 + exponent % 2);
    (x.to_bits() & (LEAST_NORMAL - 1)) | (shifted as u64) << 52
}

/// Returns squares of whole numbers up to 2^26, which have exact roots, times powers of four, and both neighbours of each.
fn near_squares(r: &mut Random) -> Vec<u64> {
    (0..1000)
        .flat_map(|_| {
            let i = 1 + r.bits(26);
            let b = times_power_of_four((i * i) as f64, r);
            [b - 1, b, b + 1]
        })
        .collect()
}

/// Returns operands whose roots are close to the middle between two neighbouring f64s: the rounded squares
/// of these middles, times powers of four, and both neighbours of each.
fn near_middles(r: &mut Random) -> Vec<u64> {
    (0..1000)
        .flat_map(|_| {
            let twice = 2 * ((1 << 52) | r.bits(52)) as u128 + 1;
            let square = (twice * twice) as f64;
            let b = times_power_of_four(square, r);
            [b - 1, b, b + 1]
        })
        .collect()
}

#[cfg(test)]
mod tests {
    use super::*;

    #[test]
    fn operands_are_as_many_and_as_varied_as_asked() {
        let all = operands();
        assert!(all.len() >= 20_000);
        let mut exponents = [false; 2048];
        all.iter().for_each(|b| exponents[(b >> 52 & 2047) as usize] = true);
        assert!(exponents.iter().all(|&seen| seen));
        for must in [0, SIGN, 1, GREATEST, LEAST_NORMAL - 1, LEAST_NORMAL, INFINITY, INFINITY | SIGN] {
            assert!(all.contains(&must), "{must:016x}");
        }
        assert!(all.iter().filter(|&&b| f64::from_bits(b).is_nan()).count() >= 500);
        assert!(all.iter().filter(|&&b| f64::from_bits(b) < 0.0).count() >= 1500);
    }

    #[test]
    fn the_document_s_root() {
        assert_eq!(root_bits(2f64.to_bits()), 0x3FF6_A09E_667F_3BCD);
        assert_eq!(root_bits((-1f64).to_bits()), REFUSED);
        assert_eq!(root_bits(SIGN), SIGN);
        assert_eq!(root_bits(INFINITY), REFUSED);
    }
}
