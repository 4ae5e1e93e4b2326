//! Numbers with exactly nine decimals, and the one nearest to a float, ties to even. A float is a whole
//! number divided by a power of two, so its digits in base 10^9 end. All of them are computed, and the
//! rounding looks at all of them.

use std::cmp::Ordering;
use std::fmt;

/// The base of the digits. It is divisible by 2^9.
const BILLION: u64 = 1_000_000_000;
const MOST_HALVINGS: u32 = 9;

/// A float whose size isn't below this is out of range.
const BOUND: f64 = 1e7;

/// A number of billionths with its sign. Zero isn't negative.
#[derive(Clone, Copy, Debug, PartialEq, Eq)]
pub struct Decimal {
    pub negative: bool,
    pub whole: u64,
    pub billionths: u64,
}

impl Decimal {
    /// Returns the number nearest to `x`; of two equally near numbers, the one whose last digit is even.
    /// Returns None if `x` isn't finite or its size is 10^7 or more.
    pub fn nearest(x: f64) -> Option<Decimal> {
        if x.is_nan() || x.abs() >= BOUND {
            return None;
        }
        let digits = digits(x);
        let (kept, dropped) = digits.split_at(3);
        let up = match against_half(dropped) {
            Ordering::Less => 0,
            Ordering::Equal => kept[2] % 2,
            Ordering::Greater => 1,
        };
        let size = (kept[0] * BILLION + kept[1]) * BILLION + kept[2] + up;
        let negative = x.is_sign_negative() && size != 0;
        Some(Decimal { negative, whole: size / BILLION, billionths: size % BILLION })
    }
}

impl fmt::Display for Decimal {
    fn fmt(&self, f: &mut fmt::Formatter) -> fmt::Result {
        let sign = if self.negative { "-" } else { "" };
        write!(f, "{sign}{}.{:09}", self.whole, self.billionths)
    }
}

/// Returns all digits of the size of `x` in base 10^9: two before the point and the rest after it, at least
/// four. The size must be below 2^24, so that the significand is halved at least 29 times.
fn digits(x: f64) -> Vec<u64> {
    let (fraction, exponent) = (x.to_bits() & ((1 << 52) - 1), (x.to_bits() >> 52 & 2047) as u32);
    let significand = if exponent == 0 { fraction } else { fraction | 1 << 52 };
    let mut digits = vec![significand / BILLION, significand % BILLION];
    let mut halvings = 1075 - exponent.max(1);
    while halvings > 0 {
        let times = halvings.min(MOST_HALVINGS);
        halve(&mut digits, times);
        halvings -= times;
    }
    digits
}

/// Halves a number up to nine times. Since 10^9 is divisible by 2^9, the result has exactly one more digit.
fn halve(digits: &mut Vec<u64>, times: u32) {
    digits.push(0);
    let mut rest = 0;
    for digit in digits {
        let dividend = rest * BILLION + *digit;
        *digit = dividend >> times;
        rest = dividend - (*digit << times);
    }
    assert_eq!(rest, 0);
}

/// Compares the digits after the point of a number below 1 with one half.
fn against_half(digits: &[u64]) -> Ordering {
    let further = digits[1..].iter().any(|&digit| digit != 0);
    digits[0].cmp(&(BILLION / 2)).then(further.cmp(&false))
}

#[cfg(test)]
mod tests;
