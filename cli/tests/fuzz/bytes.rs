//! Damages files of questions, records and boards: anywhere, and at the fields of the format.

use crate::chance::Chance;

/// Values at and next to the limits of the format's fields, and f64 values that are not finite, huge or tiny.
const ODD: [u64; 44] = [
    0,
    1,
    2,
    3,
    4,
    8,
    9,
    10,
    11,
    12,
    13,
    14,
    15,
    16,
    17,
    18,
    20,
    21,
    22,
    64,
    76,
    77,
    78,
    79,
    127,
    128,
    255,
    256,
    524,
    525,
    65_535,
    65_536,
    0xFFFF_F001,
    0xFFFF_F000,
    0x7FFF_FFFF,
    0xFFFF_FFFF,
    0x7FFF_FFFF_FFFF_FFFF,
    0x8000_0000_0000_0000,
    u64::MAX,
    0x7FF0_0000_0000_0000,
    0xFFF0_0000_0000_0000,
    0x7FF8_0000_0000_0001,
    0x7FEF_FFFF_FFFF_FFFF,
    0x4270_0000_0000_0000,
];

/// Returns the positions of the fields in questions: slots of 82 bytes.
pub fn question_fields(bytes: &[u8]) -> Vec<usize> {
    let fields = [0, 4, 6, 10, 14, 16, 17, 18, 26, 34, 42, 50, 58, 66, 74];
    (0..bytes.len() / 82).flat_map(|slot| fields.map(|field| 82 * slot + field)).collect()
}

/// Returns the positions of the fields in well-formed records. After the head come the entries of an answer, or the station and the
/// reason of refusal 12.
pub fn record_fields(bytes: &[u8]) -> Vec<usize> {
    let (mut fields, mut start) = (Vec::new(), 0);
    while start < bytes.len() {
        fields.extend([0, 4, 6, 10, 14].map(|field| start + field));
        let end = start + 4 + usize::from(bytes[start]) + 256 * usize::from(bytes[start + 1]);
        let after: &[usize] =
            if bytes[start + 4] == 3 { &[0, 4] } else { &[0, 8, 12, 16, 24, 32, 40, 48, 56] };
        let parts = (start + 16..end).step_by(64);
        fields.extend(parts.flat_map(|at| after.iter().map(move |field| at + field)));
        start = end;
    }
    fields
}

/// Returns the positions of fields in a board: those of the first slots and of the last.
pub fn board_fields(_: &[u8]) -> Vec<usize> {
    let slots = (0..8).chain([63]);
    slots
        .flat_map(|slot| [0, 4, 6, 10, 14, 16, 20, 24, 28, 32, 527].map(|field| 528 * slot + field))
        .collect()
}

/// Returns the bytes with one to three changes or, now and then, something else. `others` are files of another kind.
pub fn damaged(chance: &mut Chance, good: &[u8], fields: &[usize], others: &[&[u8]]) -> Vec<u8> {
    if chance.one_in(12) {
        return stranger(chance, others);
    }
    let mut bytes = good.to_vec();
    for _ in 0..1 + chance.below(3) {
        change(chance, &mut bytes, fields, others);
    }
    bytes
}

fn change(chance: &mut Chance, bytes: &mut Vec<u8>, fields: &[usize], others: &[&[u8]]) {
    let near = if chance.one_in(4) || fields.is_empty() { 0 } else { chance.pick(fields) };
    let at = if near == 0 { chance.below(bytes.len() + 1) } else { near.min(bytes.len()) };
    let end = (at + chance.below(200)).min(bytes.len());
    match chance.below(12) {
        0 | 1 if at < bytes.len() => bytes[at] ^= 1 << chance.below(8),
        0..=5 => put(chance, bytes, at),
        6 => bytes.truncate(at),
        7 => drop(bytes.drain(..at)),
        8 => drop(bytes.drain(at..end)),
        9 => {
            let count = chance.below(100);
            let more = chance.bytes(count);
            bytes.splice(at..at, more);
        }
        10 => {
            let part = bytes[at..end].to_vec();
            bytes.splice(at..at, part);
        }
        _ => bytes.extend_from_slice(chance.pick(others)),
    }
}

/// Puts an odd value of one to eight bytes at a position.
fn put(chance: &mut Chance, bytes: &mut [u8], at: usize) {
    let value = if chance.one_in(4) { chance.next() } else { chance.pick(&ODD) }.to_le_bytes();
    let size = chance.pick(&[1, 2, 4, 8]).min(bytes.len() - at);
    bytes[at..at + size].copy_from_slice(&value[..size]);
}

/// Returns something that is not a damaged file: nothing, a file of another kind, text, zeros, ones or random bytes.
fn stranger(chance: &mut Chance, others: &[&[u8]]) -> Vec<u8> {
    let count = chance.below(3000);
    match chance.below(7) {
        0 => Vec::new(),
        1 | 2 => chance.pick(others).to_vec(),
        3 => b"these are words\n".repeat(1 + count / 100),
        4 => vec![0; count],
        5 => vec![255; count],
        _ => chance.bytes(count),
    }
}
