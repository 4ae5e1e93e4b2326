//! Reads an orbit message. Only the exact form that the writer uses is accepted. The numbers need not be ones
//! that a float rounds to.

use super::lines::lines;
use super::text::is_text;
use super::{Decimal, BETWEEN, LINES, NUMBER_KEYS, TEXT_KEYS, VERSION, VERSION_KEY};
use super::{NOT_A_MESSAGE, SHORT_BUFFER};

/// The whole part of a number has one to seven digits, so that it is below 10^7. The fraction has nine
/// digits.
const MOST_WHOLE_DIGITS: usize = 7;
const DECIMALS: usize = 9;

/// The size of the six numbers as bytes: sign, whole part and billionths of each, u64 little-endian.
pub const STATE_SIZE: usize = 3 * 8 * NUMBER_KEYS.len();

/// Returns the six numbers of an orbit message: position, then velocity. Returns None if the bytes aren't an
/// orbit message in the exact form.
pub fn read(message: &[u8]) -> Option<[Decimal; NUMBER_KEYS.len()]> {
    let [version, rest @ ..] = &lines::<LINES>(message)?;
    let (texts, numbers) = rest.split_at(TEXT_KEYS.len());
    let mut texts = TEXT_KEYS.iter().zip(texts);
    let legal = value(version, VERSION_KEY)? == VERSION.as_bytes()
        && texts.all(|(key, line)| value(line, key).is_some_and(is_text));
    let read: Option<Vec<Decimal>> =
        NUMBER_KEYS.iter().zip(numbers).map(|(key, line)| number(value(line, key)?)).collect();
    read?.try_into().ok().filter(|_| legal)
}

/// Reads an orbit message and writes the bytes of its six numbers to the beginning of `state`. A refusal is
/// returned as the number after its B, and leaves `state` unchanged.
pub fn read_state(message: &[u8], state: &mut [u8]) -> Result<(), u8> {
    let numbers = read(message).ok_or(NOT_A_MESSAGE)?;
    let place = state.get_mut(..STATE_SIZE).ok_or(SHORT_BUFFER)?;
    place.copy_from_slice(&state_bytes(numbers));
    Ok(())
}

/// Returns the bytes of six numbers: sign (1 if negative, else 0), whole part and billionths of each.
pub fn state_bytes(numbers: [Decimal; NUMBER_KEYS.len()]) -> Vec<u8> {
    let parts = |n: Decimal| [n.negative.into(), n.whole, n.billionths].map(u64::to_le_bytes).concat();
    numbers.map(parts).concat()
}

/// Returns the value of a line. Returns None if the line doesn't begin with `KEY = `.
fn value<'a>(line: &'a [u8], key: &str) -> Option<&'a [u8]> {
    line.strip_prefix(key.as_bytes())?.strip_prefix(BETWEEN.as_bytes())
}

/// Reads a number: a minus sign or nothing, then the whole part, a point and nine digits.
fn number(value: &[u8]) -> Option<Decimal> {
    let (negative, size) = match value.strip_prefix(b"-") {
        Some(size) => (true, size),
        None => (false, value),
    };
    let point = size.iter().position(|&b| b == b'.')?;
    let (whole, fraction) = (&size[..point], &size[point + 1..]);
    let needless_zero = whole.len() > 1 && whole[0] == b'0';
    if whole.len() > MOST_WHOLE_DIGITS || needless_zero || fraction.len() != DECIMALS {
        return None;
    }
    let (whole, billionths) = (digits(whole)?, digits(fraction)?);
    let minus_zero = negative && whole == 0 && billionths == 0;
    (!minus_zero).then_some(Decimal { negative, whole, billionths })
}

/// Returns the number that one or more digits stand for. Returns None if there is no byte, or one that isn't
/// a digit.
fn digits(bytes: &[u8]) -> Option<u64> {
    let all = !bytes.is_empty() && bytes.iter().all(u8::is_ascii_digit);
    all.then(|| bytes.iter().fold(0, |n, b| 10 * n + u64::from(b - b'0')))
}

#[cfg(test)]
mod tests;
