//! Signed fixed-point numbers with 64 whole and 320 fractional bits, for judging f64 results. Sums are
//! exact. Products, quotients and roots are truncated after the last bit.

use std::ops::{Add, Div, Mul, Neg, Sub};

/// The number of words, lowest word first, and how many of them are fractional.
const WORDS: usize = 6;
const FRACTION: usize = 5;
type Words = [u64; WORDS];

/// A number in two's complement.
#[derive(Clone, Copy, Debug, PartialEq, Eq)]
pub struct Fixed(Words);

impl Fixed {
    pub const ZERO: Fixed = Fixed([0; WORDS]);

    pub fn whole(n: u32) -> Fixed {
        let mut words = [0; WORDS];
        words[FRACTION] = n.into();
        Fixed(words)
    }

    /// Converts a finite float of size below 2^63. Bits below 2^-320 are dropped.
    pub fn from_f64(x: f64) -> Fixed {
        let (bits, exponent) = (x.to_bits() & ((1 << 52) - 1), (x.to_bits() >> 52 & 2047) as i32);
        let significand = if exponent == 0 { bits } else { bits | 1 << 52 };
        let shift = 64 * FRACTION as i32 + exponent.max(1) - 1075;
        let mut words = [0; WORDS];
        for bit in (0..53).filter(|&bit| significand >> bit & 1 == 1 && shift + bit >= 0) {
            set(&mut words, (shift + bit) as usize);
        }
        Fixed(words).signed(x < 0.0)
    }

    /// Converts to a float, from the highest word that isn't zero and the word below it. The result is good to about 2^-52.
    pub fn to_f64(self) -> f64 {
        let words = self.size();
        let top = words.iter().rposition(|&w| w != 0).unwrap_or(0);
        let low = if top == 0 { 0 } else { words[top - 1] };
        let exponent = 64 * (top as i32 - FRACTION as i32);
        let size = (words[top] as f64 + low as f64 * 2f64.powi(-64)) * 2f64.powi(exponent);
        if self.is_negative() {
            -size
        } else {
            size
        }
    }

    pub fn is_negative(self) -> bool {
        self.0[WORDS - 1] >> 63 == 1
    }

    pub fn abs(self) -> Fixed {
        self.signed(self.is_negative())
    }

    pub fn below(self, other: Fixed) -> bool {
        (self - other).is_negative()
    }

    /// Divides by a small whole number.
    pub fn over(self, n: u32) -> Fixed {
        let mut words = self.size();
        let mut rest = 0u128;
        for w in words.iter_mut().rev() {
            let part = rest << 64 | u128::from(*w);
            *w = (part / u128::from(n)) as u64;
            rest = part % u128::from(n);
        }
        Fixed(words).signed(self.is_negative())
    }

    /// Returns the square root of a number that isn't negative, one binary digit at a time from the highest.
    pub fn root(self) -> Fixed {
        assert!(!self.is_negative());
        let mut best = [0; WORDS];
        for bit in (0..64 * FRACTION + 32).rev() {
            let mut tried = best;
            set(&mut tried, bit);
            let square = Fixed(tried) * Fixed(tried);
            if !self.below(square) {
                best = tried;
            }
        }
        Fixed(best)
    }

    fn size(self) -> Words {
        self.abs().0
    }

    fn signed(self, negative: bool) -> Fixed {
        if negative {
            -self
        } else {
            self
        }
    }
}

fn set(words: &mut Words, bit: usize) {
    words[bit / 64] |= 1 << (bit % 64);
}

/// Returns a + b + carry, without the carry out of the highest word.
fn sum(a: Words, b: Words, mut carry: bool) -> Words {
    std::array::from_fn(|i| {
        let (part, first) = a[i].overflowing_add(b[i]);
        let (part, second) = part.overflowing_add(carry.into());
        carry = first || second;
        part
    })
}

impl Add for Fixed {
    type Output = Fixed;
    fn add(self, other: Fixed) -> Fixed {
        Fixed(sum(self.0, other.0, false))
    }
}

impl Sub for Fixed {
    type Output = Fixed;
    fn sub(self, other: Fixed) -> Fixed {
        Fixed(sum(self.0, other.0.map(|w| !w), true))
    }
}

impl Neg for Fixed {
    type Output = Fixed;
    fn neg(self) -> Fixed {
        Fixed::ZERO - self
    }
}

impl Mul for Fixed {
    type Output = Fixed;
    fn mul(self, other: Fixed) -> Fixed {
        let (a, b) = (self.size(), other.size());
        let mut all = [0u64; 2 * WORDS];
        for i in 0..WORDS {
            let mut carry = 0;
            for j in 0..WORDS {
                let part = u128::from(a[i]) * u128::from(b[j]) + u128::from(all[i + j]) + carry;
                all[i + j] = part as u64;
                carry = part >> 64;
            }
            all[i + WORDS] = carry as u64;
        }
        assert!(all[FRACTION + WORDS] == 0, "a product too great");
        Fixed(std::array::from_fn(|i| all[i + FRACTION])).signed(self.is_negative() != other.is_negative())
    }
}

impl Div for Fixed {
    type Output = Fixed;
    /// Divides by long division, one bit at a time.
    fn div(self, other: Fixed) -> Fixed {
        assert!(other != Fixed::ZERO);
        let (a, b) = (self.size(), Fixed(other.size()));
        let (mut rest, mut quotient) = (Fixed::ZERO, [0; WORDS]);
        for bit in (0..64 * (WORDS + FRACTION)).rev() {
            rest = rest + rest;
            let place = bit as i32 - 64 * FRACTION as i32;
            if place >= 0 && a[place as usize / 64] >> (place % 64) & 1 == 1 {
                rest.0[0] |= 1;
            }
            if !rest.below(b) {
                rest = rest - b;
                assert!(bit < 64 * WORDS, "a quotient too great");
                set(&mut quotient, bit);
            }
        }
        Fixed(quotient).signed(self.is_negative() != other.is_negative())
    }
}

#[cfg(test)]
mod tests {
    use super::*;

    fn f(x: f64) -> Fixed {
        Fixed::from_f64(x)
    }

    #[test]
    fn short_numbers_are_exact() {
        assert_eq!(f(-3.5) * f(2.25), f(-7.875));
        assert_eq!(f(-7.875) / f(2.25), f(-3.5));
        assert_eq!(f(0.25) - f(1.0), f(-0.75));
        assert_eq!(f(2.25).root(), f(1.5));
        assert_eq!(f(-7.5).over(3), f(-2.5));
        assert_eq!(Fixed::whole(7), f(7.0));
        for x in [0.0, 1.0, -1.0 / 3.0, 1e-20, 1e15, std::f64::consts::PI] {
            assert_eq!(f(x).to_f64(), x);
        }
    }

    /// Truncation causes errors of a few units of the last bit.
    #[test]
    fn long_numbers_are_close() {
        let last = f(2f64.powi(-310));
        let (two, seven) = (Fixed::whole(2), Fixed::whole(7));
        assert!((two.root() * two.root() - two).abs().below(last));
        assert!((two / seven * seven - two).abs().below(last));
        assert_eq!(two.over(7), two / seven);
    }
}
