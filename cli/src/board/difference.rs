//! The first difference of two well-formed records: its byte, the name of the field there, and both values in full.

use crate::wire::form::{ENTRY, HEAD};
use crate::wire::{f64_at, i32_at, i64_at, u16_at, u32_at};
use crate::words::number;

#[derive(Debug, PartialEq)]
pub struct Difference {
    /// The byte of the record at which the field begins.
    pub byte: usize,
    pub field: String,
    pub values: [String; 2],
}

impl Difference {
    pub fn sentence(&self) -> String {
        let Difference { byte, field, values: [one, other] } = self;
        format!("they differ first at byte {byte} of the record, {field}: {one} and {other}")
    }
}

/// Reads the value of a field at its position.
type Value = fn(&[u8], usize) -> String;

const OF_HEAD: [(usize, &str, Value); 4] = [
    (0, "length", |bytes, at| u32_at(bytes, at).to_string()),
    (4, "kind", |bytes, at| u16_at(bytes, at).to_string()),
    (6, "job", |bytes, at| u32_at(bytes, at).to_string()),
    (10, "revision", |bytes, at| u32_at(bytes, at).to_string()),
];

/// The fields of refusal 12 after its head.
const OF_VOID_STATION: [(usize, &str, Value); 2] = [
    (0, "j of the first void station", |bytes, at| i32_at(bytes, at).to_string()),
    (4, "reason of the first void station", |bytes, at| u16_at(bytes, at).to_string()),
];

const OF_ENTRY: [(usize, &str, Value); 9] = [
    (0, "lower end k", |bytes, at| i64_at(bytes, at).to_string()),
    (8, "halvings", |bytes, at| u32_at(bytes, at).to_string()),
    (12, "chosen end", |bytes, at| u32_at(bytes, at).to_string()),
    (16, "v1 x", float),
    (24, "v1 y", float),
    (32, "v1 z", float),
    (40, "v2 x", float),
    (48, "v2 y", float),
    (56, "v2 z", float),
];

/// Returns a float in full. All NaN are written alike, so the bits of one are written too.
fn float(bytes: &[u8], at: usize) -> String {
    let value = f64_at(bytes, at);
    if value.is_nan() {
        format!("NaN (bits {:016x})", value.to_bits())
    } else {
        number(value)
    }
}

/// Returns the first difference of two records, or `None` if they are equal.
pub fn first(one: &[u8], other: &[u8]) -> Option<Difference> {
    let at = one.iter().zip(other).position(|(a, b)| a != b)?;
    let (byte, field, value) = field_at(one, at);
    Some(Difference { byte, field, values: [one, other].map(|bytes| value(bytes, byte)) })
}

/// Returns the first byte, the name and the value of the field to which a byte of a record belongs.
fn field_at(record: &[u8], at: usize) -> (usize, String, Value) {
    let last = |fields: &[(usize, &'static str, Value)], at| {
        *fields.iter().rev().find(|(begin, ..)| *begin <= at).expect("the first field begins at 0")
    };
    if at >= HEAD && u16_at(record, 4) == 3 {
        let (begin, name, value) = last(&OF_VOID_STATION, at - HEAD);
        return (HEAD + begin, name.into(), value);
    }
    if at >= HEAD {
        let i = (at - HEAD) / ENTRY;
        let (begin, name, value) = last(&OF_ENTRY, (at - HEAD) % ENTRY);
        return (HEAD + ENTRY * i + begin, format!("{name} of transfer {}", i + 1), value);
    }
    if at >= 14 {
        let name = if u16_at(record, 4) == 2 { "n" } else { "number" };
        return (14, name.into(), |bytes, at| u16_at(bytes, at).to_string());
    }
    let (begin, name, value) = last(&OF_HEAD, at);
    (begin, name.into(), value)
}

#[cfg(test)]
mod tests {
    use super::*;

    fn answer() -> Vec<u8> {
        let mut bytes = [&140u32.to_le_bytes()[..], &[2, 0, 7, 0, 0, 0, 1, 0, 0, 0, 2, 0]].concat();
        bytes.resize(HEAD + 2 * ENTRY, 0);
        bytes
    }

    fn changed(at: usize, value: &[u8]) -> String {
        let mut other = answer();
        other[at..at + value.len()].copy_from_slice(value);
        first(&answer(), &other).expect("a difference").sentence()
    }

    #[test]
    fn every_field_has_its_name_and_its_value() {
        for (at, value, words) in [
            (0, &76u32.to_le_bytes()[..], "byte 0, length: 140 and 76"),
            (5, &[1], "byte 4, kind: 2 and 258"),
            (6, &[8], "byte 6, job: 7 and 8"),
            (13, &[1], "byte 10, revision: 1 and 16777217"),
            (14, &[3], "byte 14, n: 2 and 3"),
            (16, &(-5i64).to_le_bytes(), "byte 16, lower end k of transfer 1: 0 and -5"),
            (24, &[20], "byte 24, halvings of transfer 1: 0 and 20"),
            (28, &[1], "byte 28, chosen end of transfer 1: 0 and 1"),
            (32, &6.752090000001f64.to_le_bytes(), "byte 32, v1 x of transfer 1: 0 and 6.752090000001"),
            (80, &[9], "byte 80, lower end k of transfer 2: 0 and 9"),
            (104, &1e300f64.to_le_bytes(), "byte 104, v1 y of transfer 2: 0 and 1e300"),
            (136, &(-0.0f64).to_le_bytes(), "byte 136, v2 z of transfer 2: 0 and -0"),
        ] {
            let (byte, field) = words.split_once(", ").expect("a byte and a field");
            assert_eq!(changed(at, value), format!("they differ first at {byte} of the record, {field}"));
        }
        assert_eq!(first(&answer(), &answer()), None);
    }

    #[test]
    fn two_nan_are_told_apart() {
        let nan = |bits: u64| [&answer()[..32], &bits.to_le_bytes(), &answer()[40..]].concat();
        let found = first(&nan(0x7ff8_0000_0000_0001), &nan(0x7ff8_0000_0000_0002)).expect("a difference");
        assert_eq!(found.values, ["NaN (bits 7ff8000000000001)", "NaN (bits 7ff8000000000002)"]);
    }

    #[test]
    fn two_refusals_12_differ_in_their_void_stations() {
        let refusal = |j: i32, reason: u16| {
            let head = [18, 0, 0, 0, 3, 0, 7, 0, 0, 0, 1, 0, 0, 0, 12, 0];
            [&head[..], &j.to_le_bytes(), &reason.to_le_bytes()].concat()
        };
        for (one, other, words) in [
            (
                refusal(-4095, 1),
                refusal(16_384, 2),
                "byte 16 of the record, j of the first void station: -4095 and 16384",
            ),
            (
                refusal(-1, 1),
                refusal(-257, 1),
                "byte 16 of the record, j of the first void station: -1 and -257",
            ),
            (
                refusal(i32::MIN, 1),
                refusal(0, 1),
                "byte 16 of the record, j of the first void station: -2147483648 and 0",
            ),
            (
                refusal(5, 1),
                refusal(5, 2),
                "byte 20 of the record, reason of the first void station: 1 and 2",
            ),
            (
                refusal(5, 1),
                refusal(5, 0xff01),
                "byte 20 of the record, reason of the first void station: 1 and 65281",
            ),
        ] {
            let found = first(&one, &other).expect("a difference");
            assert_eq!(found.sentence(), format!("they differ first at {words}"));
        }
        assert_eq!(first(&refusal(5, 1), &refusal(5, 1)), None);
        let plain = [12, 0, 0, 0, 3, 0, 7, 0, 0, 0, 1, 0, 0, 0, 11, 0];
        let found = first(&refusal(5, 1), &plain).expect("a difference");
        assert_eq!(found.sentence(), "they differ first at byte 0 of the record, length: 18 and 12");
    }

    #[test]
    fn two_refusals_differ_in_their_numbers() {
        let refusal = |number| [12, 0, 0, 0, 3, 0, 7, 0, 0, 0, 1, 0, 0, 0, number, 0];
        let found = first(&refusal(9), &refusal(11)).expect("a difference");
        assert_eq!(found.sentence(), "they differ first at byte 14 of the record, number: 9 and 11");
        let found = first(&answer(), &refusal(11)).expect("a difference");
        assert_eq!(found.sentence(), "they differ first at byte 0 of the record, length: 140 and 12");
    }
}
