//! Changes of the lines, their ends and their keys.

use super::super::texts::text;
use super::{any_line, joined, key_size, split, with_line, Change};
use crate::opm::{BETWEEN, LINES, NUMBER_KEYS, TEXT_KEYS};
use crate::random::{pick, Random};

pub const CHANGES: &[Change] = &[
    |message, _| message[..message.len() - 1].to_vec(),
    |message, r| [message, pick(&TAILS, r)].concat(),
    |message, r| [pick(&HEADS, r), message].concat(),
    |message, r| {
        [message, message].concat()[..message.len() + 1 + r.below(message.len() as u64) as usize].to_vec()
    },
    |message, r| message[..r.below(message.len() as u64) as usize].to_vec(),
    |message, _| joined(&split(message), b"\r\n"),
    |message, _| joined(&split(message), b"\r"),
    |message, r| with_line(message, any_line(r), |line| [&line[..], pick(&ENDS, r)].concat()),
    |message, r| inserted(message, pick(&[b"".to_vec(), b" ".to_vec(), b"\r".to_vec()], r), r),
    |message, r| inserted(message, [b"COMMENT ", &text(r)[..]].concat(), r),
    |message, r| inserted(message, b"COMMENT".to_vec(), r),
    |message, r| inserted(message, b"USER_DEFINED_X = 1.000000000".to_vec(), r),
    swapped,
    |message, r| inserted(message, pick(&split(message), r), r),
    |message, r| rejoined(message, r, |lines, i| drop(lines.remove(i))),
    |message, r| with_line(message, any_line(r), |line| [&pick(&[b" ", b"\t"], r)[..], &line].concat()),
    |message, r| with_line(message, any_line(r), |line| with_between(&line, pick(&BETWEENS, r))),
    |message, r| {
        with_line(message, any_line(r), |line| with_key(&line, &line[..key_size(&line)].to_ascii_lowercase()))
    },
    |message, r| with_line(message, any_line(r), |line| other_case(line, r)),
    |message, r| with_line(message, any_line(r), |line| with_key(&line, other_key(&line, r).as_bytes())),
    |message, r| with_line(message, any_line(r), |line| line[..key_size(&line)].to_vec()),
    |message, r| with_line(message, any_line(r), |line| line[..key_size(&line) + BETWEEN.len()].to_vec()),
];

const TAILS: [&[u8]; 9] =
    [b"\n", b"\r\n", b"\r", b" ", b"\0", b"0", b"X", b"COMMENT x\n", b"X = 1.000000000\n"];
const HEADS: [&[u8]; 6] = [b"\n", b" ", b"\r\n", b"\0", b"\xEF\xBB\xBF", b"COMMENT x\n"];
const ENDS: [&[u8]; 6] = [b"\r", b" ", b"\t", b"\0", b"\x7F", b"\xC2\xA0"];
const BETWEENS: [&[u8]; 9] = [b"=", b" =", b"= ", b"  = ", b" =  ", b"\t= ", b" : ", b"   ", b""];

/// Puts a line before one of the lines or at the end.
fn inserted(message: &[u8], line: Vec<u8>, r: &mut Random) -> Vec<u8> {
    let mut lines = split(message);
    lines.insert(r.below(LINES as u64 + 1) as usize, line);
    joined(&lines, b"\n")
}

fn rejoined(message: &[u8], r: &mut Random, change: impl FnOnce(&mut Vec<Vec<u8>>, usize)) -> Vec<u8> {
    let mut lines = split(message);
    change(&mut lines, any_line(r));
    joined(&lines, b"\n")
}

/// Swaps two lines, half of the time neighbours.
fn swapped(message: &[u8], r: &mut Random) -> Vec<u8> {
    let distance = pick(&[1, 1 + r.below(LINES as u64 - 1) as usize], r);
    rejoined(message, r, |lines, i| lines.swap(i, (i + distance) % LINES))
}

fn with_between(line: &[u8], between: &[u8]) -> Vec<u8> {
    let size = key_size(line);
    [&line[..size], between, &line[size + BETWEEN.len()..]].concat()
}

fn with_key(line: &[u8], key: &[u8]) -> Vec<u8> {
    [key, &line[key_size(line)..]].concat()
}

/// Changes the case of one letter of the key.
fn other_case(mut line: Vec<u8>, r: &mut Random) -> Vec<u8> {
    let letters: Vec<usize> = (0..key_size(&line)).filter(|&i| line[i].is_ascii_alphabetic()).collect();
    line[pick(&letters, r)] ^= 0x20;
    line
}

/// Returns a key that isn't the line's own.
fn other_key(line: &[u8], r: &mut Random) -> &'static str {
    let further = ["CCSDS_OEM_VERS", "", "X_DDOT", "MAN_ID", "EPOCH_", "REF_FRAME_EPOCH"];
    let mut keys = [&TEXT_KEYS[..], &NUMBER_KEYS, &further].concat();
    keys.retain(|key| key.as_bytes() != &line[..key_size(line)]);
    pick(&keys, r)
}
