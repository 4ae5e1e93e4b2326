//! A whole orbit message, and reading what was written.

use super::*;
use crate::record::Record;
use crate::solve::Entry;
use crate::wire::Vector;

pub const TEXTS: &[u8] =
    b"2026-11-17T00:00:00\nVANATSURK\nTUG 7\n2026-001A\nEARTH\nEME2000\nUTC\n2026-11-18T06:30:00\n";
pub const R1: Vector = [7000.0, -0.0, 1.0 / 1024.0];
pub const V1: Vector = [-1.5, 9_999_999.25, -1e-10];

const MESSAGE: &str = "CCSDS_OPM_VERS = 2.0
CREATION_DATE = 2026-11-17T00:00:00
ORIGINATOR = VANATSURK
OBJECT_NAME = TUG 7
OBJECT_ID = 2026-001A
CENTER_NAME = EARTH
REF_FRAME = EME2000
TIME_SYSTEM = UTC
EPOCH = 2026-11-18T06:30:00
X = 7000.000000000
Y = 0.000000000
Z = 0.000976562
X_DOT = -1.500000000
Y_DOT = 9999999.250000000
Z_DOT = 0.000000000
";

/// Returns the bytes of an answer with the given values as v1 of its entries. Its v2 are not finite.
pub fn answer(job: u32, v1: &[Vector]) -> Vec<u8> {
    let entry = |v1| Entry { lower: -5, halvings: 20, upper_chosen: true, velocities: [v1, [f64::NAN; 3]] };
    Record { job, revision: 2, outcome: Ok(v1.iter().map(|&v1| entry(v1)).collect()) }.write()
}

/// Returns the result of the writer and the buffer after it. Before the call every byte is 0xB7.
pub fn written(
    answer: &[u8],
    entry: u64,
    r1: Vector,
    texts: &[u8],
    room: usize,
) -> (Result<usize, u8>, Vec<u8>) {
    let mut out = vec![0xB7; room];
    (write(answer, entry, r1, texts, &mut out), out)
}

/// Returns an orbit message that the reader accepts.
pub fn message() -> Vec<u8> {
    MESSAGE.as_bytes().to_vec()
}

#[test]
fn a_whole_message() {
    let (size, out) = written(&answer(7, &[V1]), 1, R1, TEXTS, 1000);
    assert_eq!(String::from_utf8_lossy(&out[..size.unwrap()]), MESSAGE);
    assert!(out[size.unwrap()..].iter().all(|&b| b == 0xB7));
}

#[test]
fn what_is_read_is_what_was_rounded() {
    let numbers = R1.into_iter().chain(V1).map(|x| Decimal::nearest(x).unwrap());
    assert!(numbers.eq(read(&message()).unwrap()));
}

#[test]
fn the_shortest_and_the_longest_message() {
    let (short, long) = (b"a\n".repeat(8), [&[b'a'; 60][..], b"\n"].concat().repeat(8));
    let largest = -f64::next_down(1e7);
    let size = |x: f64, texts: &[u8]| written(&answer(7, &[[x; 3]]), 1, [x; 3], texts, 1000).0;
    assert_eq!([size(0.0, &short), size(largest, &long)], [Ok(248), Ok(762)]);
}

#[test]
fn the_number_of_lines() {
    assert_eq!(LINES, 15);
    assert_eq!(MESSAGE.lines().count(), LINES);
}
