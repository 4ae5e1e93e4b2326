//! Operands of roots, as bits.

use reference::random::Random;

pub const SIGN: u64 = 1 << 63;
pub const INFINITY: u64 = 0x7FF0_0000_0000_0000;
pub const LEAST_NORMAL: u64 = 1 << 52;

/// The greatest whole number whose square is below 2^53. It has 27 binary digits.
const GREATEST_EXACT: u64 = 94_906_265;

/// Returns a random number from 2^-200 to below 2^201.
pub fn ordinary(random: &mut Random) -> u64 {
    let exponent = 1023 - 200 + random.below(401);
    (exponent << 52) | random.bits(52)
}

/// Returns a subnormal number of 1 to 52 binary digits.
pub fn subnormal(random: &mut Random) -> u64 {
    let digits = random.below(52);
    (1 << digits) | random.bits(digits as u32)
}

/// Returns the square of a whole number of 26 or 27 binary digits, which is exact, times a power of four.
pub fn exact_square(random: &mut Random) -> u64 {
    let (least, greatest) =
        if random.below(2) == 0 { (1 << 25, (1 << 26) - 1) } else { (1 << 26, GREATEST_EXACT) };
    let i = least + random.below(greatest - least + 1);
    times_power_of_four((i * i) as f64, random)
}

/// Returns the square of a number of 53 binary digits, rounded, times a power of four.
pub fn rounded_square(random: &mut Random) -> u64 {
    let s = u128::from(LEAST_NORMAL | random.bits(52));
    times_power_of_four((s * s) as f64, random)
}

/// Returns the square of the middle between two neighbouring numbers of 53 binary digits, rounded, times a power of
/// four.
pub fn square_of_middle(random: &mut Random) -> u64 {
    let twice = 2 * u128::from(LEAST_NORMAL | random.bits(52)) + 1;
    times_power_of_four((twice * twice) as f64, random)
}

/// Returns an operand whose root is very near the middle between two neighbouring f64s: nearer than 2^-30 of their
/// distance. The operand is w^2 - c, times a power of four, for a w of 54 binary digits and a small c. The subtraction
/// leaves at most 53 digits and then zeros, because w^2 and c have the same last digits: 55 of them if w^2 has 108
/// digits, and at least 54 if it has 107.
pub fn very_near_middle(random: &mut Random) -> u64 {
    let length = random.below(20) as u32;
    let c = 1 + 8 * (random.bits(length) as i64 - random.bits(length) as i64);
    let w = root_of_last_digits(c);
    let other = (3 << 53) - w;
    let has_107_digits = i128::from(other).pow(2) < 1 << 107;
    let w = i128::from(if has_107_digits && random.below(2) == 0 { other } else { w });
    times_power_of_four((w * w - i128::from(c)) as f64, random)
}

/// Returns the whole number w of 54 binary digits for which w^2 and c have the same last 55 digits. The last three digits
/// of c are 001. Each step makes one more digit equal.
fn root_of_last_digits(c: i64) -> u64 {
    let differ = |w: u64, digit: u64| (w.wrapping_mul(w) ^ c as u64) >> digit & 1;
    let w = (3..55).fold(1, |w, digit| w + (differ(w, digit) << (digit - 1)));
    if w < 1 << 53 {
        (1 << 54) - w
    } else {
        w
    }
}

/// Multiplies a number by a random power of four, such that the product is normal. Its exponent field keeps its parity.
fn times_power_of_four(x: f64, random: &mut Random) -> u64 {
    let odd = (x.to_bits() >> 52) % 2;
    let exponent = 2 - odd + 2 * random.below(1023);
    (exponent << 52) | (x.to_bits() % LEAST_NORMAL)
}

/// Returns the 4,096 bit patterns around `b`.
pub fn around(b: u64) -> impl Iterator<Item = u64> {
    b - 2048..b + 2048
}

/// Returns `b` and both neighbours.
pub fn with_neighbours(b: u64) -> [u64; 3] {
    [b - 1, b, b + 1]
}
