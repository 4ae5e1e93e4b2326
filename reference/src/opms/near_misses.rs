//! Changes of an orbit message after which the bytes are not an orbit message, but nearly one.

mod lines;
mod values;

use crate::opm::{BETWEEN, LINES, TEXT_KEYS};
use crate::random::Random;

/// A change of an orbit message after which it is no longer in the exact form.
pub type Change = fn(&[u8], &mut Random) -> Vec<u8>;

/// Returns all changes.
pub fn changes() -> Vec<Change> {
    [lines::CHANGES, values::CHANGES].concat()
}

/// Returns the lines of an orbit message without their LF.
fn split(message: &[u8]) -> Vec<Vec<u8>> {
    let mut lines: Vec<Vec<u8>> = message.split(|&b| b == b'\n').map(<[u8]>::to_vec).collect();
    lines.pop();
    lines
}

/// Returns the bytes of the lines, each ended by `end`.
fn joined(lines: &[Vec<u8>], end: &[u8]) -> Vec<u8> {
    lines.iter().flat_map(|line| [line, end].concat()).collect()
}

/// Returns the orbit message with one line changed.
fn with_line(message: &[u8], i: usize, change: impl FnOnce(Vec<u8>) -> Vec<u8>) -> Vec<u8> {
    let mut lines = split(message);
    lines[i] = change(lines[i].clone());
    joined(&lines, b"\n")
}

/// Returns the orbit message with the value of one line changed.
pub fn with_value(message: &[u8], i: usize, change: impl FnOnce(&[u8]) -> Vec<u8>) -> Vec<u8> {
    with_line(message, i, |line| {
        let (key, value) = line.split_at(key_size(&line) + BETWEEN.len());
        [key, &change(value)].concat()
    })
}

/// Returns the size of a line's key. No key has a blank.
fn key_size(line: &[u8]) -> usize {
    line.iter().position(|&b| b == b' ').expect("a right line has a blank")
}

/// Draws the index of a line, of a line with a text, or of a line with a number.
fn any_line(r: &mut Random) -> usize {
    r.below(LINES as u64) as usize
}

fn text_line(r: &mut Random) -> usize {
    1 + r.below(TEXT_KEYS.len() as u64) as usize
}

pub fn number_line(r: &mut Random) -> usize {
    let first = 1 + TEXT_KEYS.len();
    first + r.below((LINES - first) as u64) as usize
}

#[cfg(test)]
mod tests {
    use super::*;
    use crate::opm::read;
    use crate::opms::right_call;

    #[test]
    fn no_change_gives_a_message() {
        let mut r = Random::new(38);
        for (n, change) in changes().into_iter().enumerate() {
            for i in 0..100 {
                let (call, _) = right_call(i, &mut r);
                let mut out = vec![0; call.room];
                let size = call.write(&mut out).unwrap();
                let changed = change(&out[..size], &mut r);
                assert_eq!(read(&changed), None, "change {n}: {}", String::from_utf8_lossy(&changed));
            }
        }
    }

    #[test]
    fn lines_are_split_and_joined() {
        assert_eq!(split(b"A = 1\nB = = 2\n"), [b"A = 1".to_vec(), b"B = = 2".to_vec()]);
        assert_eq!(joined(&split(b"A = 1\nB = 2\n"), b"\r\n"), b"A = 1\r\nB = 2\r\n");
        assert_eq!(with_value(b"A = 1\nB = = 2\n", 1, |value| [b"3", value].concat()), b"A = 1\nB = 3= 2\n");
    }
}
