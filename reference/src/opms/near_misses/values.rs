//! Changes of the version, a text or a number.

use super::super::texts::{illegal_text, text};
use super::{number_line, text_line, with_value, Change};
use crate::random::{pick, Random};

pub const CHANGES: &[Change] = &[
    |message, r| with_value(message, 0, |_| pick(&VERSIONS, r).to_vec()),
    |message, r| with_value(message, text_line(r), |_| illegal_text(r)),
    |message, r| with_value(message, text_line(r), |value| [&value[..1], &[b'x'; 60]].concat()),
    |message, r| with_value(message, text_line(r), |value| [b" ", value].concat()),
    |message, r| with_value(message, number_line(r), |_| text_of_no_number(r)),
    |message, r| with_value(message, number_line(r), |_| pick(&NOT_NUMBERS, r).to_vec()),
    |message, r| with_value(message, number_line(r), |_| b"-0.000000000".to_vec()),
    |message, r| with_value(message, number_line(r), |value| [b"+", unsigned(value)].concat()),
    |message, r| with_value(message, number_line(r), |value| [b"--", unsigned(value)].concat()),
    |message, r| with_value(message, number_line(r), |value| [b"- ", unsigned(value)].concat()),
    |message, r| with_value(message, number_line(r), |value| [sign(value), b"0", unsigned(value)].concat()),
    |message, r| {
        with_value(message, number_line(r), |value| [sign(value), b"0000000", unsigned(value)].concat())
    },
    |message, r| with_value(message, number_line(r), |value| [sign(value), fraction(value)].concat()),
    |message, r| {
        with_value(message, number_line(r), |value| [sign(value), &many_digits(r), fraction(value)].concat())
    },
    |message, r| {
        with_value(message, number_line(r), |value| value[..value.len() - 1 - r.below(10) as usize].to_vec())
    },
    |message, r| with_value(message, number_line(r), |value| [value, pick(&FURTHER, r)].concat()),
    |message, r| with_value(message, number_line(r), |value| with_byte(value, &BESIDE_DIGITS, r)),
    |message, r| with_value(message, number_line(r), |value| with_other_point(value, r)),
];

const VERSIONS: [&[u8]; 11] =
    [b"1.0", b"3.0", b"2", b"2.", b"2.00", b"02.0", b"2.1", b"2,0", b"2.0 ", b"2.000000000", b""];
const NOT_NUMBERS: [&[u8]; 13] = [
    b"",
    b"-",
    b".",
    b"0",
    b"-0",
    b"1e3",
    b"1.000000000e0",
    b"NaN",
    b"inf",
    b"-inf",
    b".000000000",
    b"00.500000000",
    b"10000000.000000000",
];
/// What must not follow a number: a further digit, a unit, a blank, an exponent.
const FURTHER: [&[u8]; 9] = [b"0", b"5", b" [km]", b" [km/s]", b"[km]", b" ", b"e0", b".", b"-"];
/// The neighbours of the digits, and other bytes that a loose reader may take for one.
const BESIDE_DIGITS: [u8; 7] = [b'/', b':', b'A', b'e', b' ', 0xB0, 0x10];

fn sign(value: &[u8]) -> &[u8] {
    &value[..value.len() - unsigned(value).len()]
}

/// Returns the value without its minus sign.
fn unsigned(value: &[u8]) -> &[u8] {
    value.strip_prefix(b"-").unwrap_or(value)
}

/// Returns the value's last ten bytes: the point and nine digits.
fn fraction(value: &[u8]) -> &[u8] {
    &value[value.len() - 10..]
}

/// Draws eight to twenty-one digits of which the first isn't zero.
fn many_digits(r: &mut Random) -> Vec<u8> {
    let more = pick(&[7, 7, 8, 9, 12, 19, 20], r);
    let first = b'1' + r.below(9) as u8;
    [first].into_iter().chain((0..more).map(|_| b'0' + r.below(10) as u8)).collect()
}

/// Draws a text. It isn't a number, since the letter at its end isn't a digit.
fn text_of_no_number(r: &mut Random) -> Vec<u8> {
    [&text(r)[..], b"x"].concat()
}

/// Returns the value with one digit replaced by another byte.
fn with_byte(value: &[u8], bytes: &[u8], r: &mut Random) -> Vec<u8> {
    let mut other = value.to_vec();
    let digits: Vec<usize> = (0..value.len()).filter(|&i| value[i].is_ascii_digit()).collect();
    other[pick(&digits, r)] = pick(bytes, r);
    other
}

/// Returns the value with its point moved, doubled, left out or replaced.
fn with_other_point(value: &[u8], r: &mut Random) -> Vec<u8> {
    let (whole, digits) = (&value[..value.len() - 10], &value[value.len() - 9..]);
    match r.below(5) {
        0 => [whole, digits].concat(),
        1 => [whole, b",", digits].concat(),
        2 => [whole, b"..", digits].concat(),
        3 => [whole, &digits[..1], b".", &digits[1..]].concat(),
        _ => [whole, b".", &digits[..4], b".", &digits[5..]].concat(),
    }
}
