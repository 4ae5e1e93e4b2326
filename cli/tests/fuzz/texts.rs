//! Damages texts: the values of options, the fields and lines of CSV files, and orbit messages.

use crate::chance::Chance;

/// Values that some field or option must not take, or must take with care.
const ODD: [&str; 64] = [
    "",
    " ",
    "\t",
    "0",
    "-0",
    "+0",
    "1",
    "-1",
    "+1",
    "00",
    "1.5",
    ".5",
    "5.",
    ".",
    "-",
    "+",
    "--",
    "e",
    "1e",
    "1e5",
    "1e308",
    "1e309",
    "-1e999",
    "1e-308",
    "1e-999",
    "0e999999999",
    "nan",
    "NaN",
    "inf",
    "-inf",
    "infinity",
    "0x10",
    "1_000",
    "1,5",
    "1,2,3",
    "1,2,3,4",
    ",,",
    "65535",
    "65536",
    "4294967295",
    "4294967296",
    "18446744073709551616",
    "99999999999999999999999999999999999999",
    "earth",
    "Earth",
    "venus",
    "6h",
    "6 h",
    "6hh",
    "6 min",
    "5m",
    "1e308d",
    "short",
    "long",
    "SHORT",
    "\"",
    "\"\"",
    "\"\"\"",
    "'",
    "é",
    "6é",
    "٣",
    "\u{feff}",
    "🛰",
];

/// Returns a value without a zero byte: an odd one, a long one or random bytes.
pub fn value(chance: &mut Chance) -> Vec<u8> {
    match chance.below(10) {
        0 => chance.pick(&["9", "x", "é", "-", "1,", "0."]).repeat(1 + chance.below(50_000)).into_bytes(),
        1 => {
            let count = 1 + chance.below(80);
            chance.bytes(count).into_iter().filter(|byte| *byte != 0).collect()
        }
        _ => chance.pick(&ODD).into(),
    }
}

/// Returns the text with one to three changes or, now and then, something else. `others` are files of another kind.
pub fn damaged(chance: &mut Chance, good: &[u8], others: &[&[u8]]) -> Vec<u8> {
    if chance.one_in(12) {
        return stranger(chance, others);
    }
    let mut text = good.to_vec();
    for _ in 0..1 + chance.below(3) {
        match chance.below(3) {
            0 => anywhere(chance, &mut text),
            1 => line(chance, &mut text),
            _ => field(chance, &mut text),
        }
    }
    text
}

/// Changes a byte, inserts some bytes, cuts the text, or changes its line ends.
fn anywhere(chance: &mut Chance, text: &mut Vec<u8>) {
    let at = chance.below(text.len() + 1);
    let odd: [&[u8]; 8] = [b"\0", b"\"", b"\r", b"\n", b",", b"\xff", b"\xc3", "\u{feff}".as_bytes()];
    match chance.below(8) {
        0 if at < text.len() => text[at] ^= 1 << chance.below(8),
        1 => text.truncate(at),
        2 => drop(text.drain(..at)),
        3 => *text = text.split_inclusive(|byte| *byte == b'\n').flat_map(with_return).collect(),
        4 => drop(text.splice(0..0, "\u{feff}".bytes())),
        _ => drop(text.splice(at..at, chance.pick(&odd).to_vec())),
    }
}

fn with_return(line: &[u8]) -> Vec<u8> {
    match line.strip_suffix(b"\n") {
        Some(line) => [line, b"\r\n"].concat(),
        None => line.to_vec(),
    }
}

/// Removes, repeats, moves or empties a line, or makes it very long.
fn line(chance: &mut Chance, text: &mut Vec<u8>) {
    let mut lines: Vec<Vec<u8>> = text.split_inclusive(|byte| *byte == b'\n').map(<[u8]>::to_vec).collect();
    if lines.is_empty() {
        return;
    }
    let at = chance.below(lines.len());
    match chance.below(7) {
        0 => drop(lines.remove(at)),
        1 => lines.insert(at, lines[at].clone()),
        2 => lines.swap(at, 0),
        3 => lines[at] = b"\n".to_vec(),
        4 => lines[at] = vec![b','; 1 + chance.below(5000)],
        5 => {
            let size = chance.pick(&[1 << 16, 1 << 20]) - 100 + chance.below(200);
            lines[at] = vec![chance.pick(b"x\",,\n"); size];
        }
        _ => lines.extend(lines.clone()),
    }
    *text = lines.concat();
}

/// Replaces a field. Fields are separated by commas, line ends and equals signs.
fn field(chance: &mut Chance, text: &mut Vec<u8>) {
    let ends: Vec<usize> = (0..text.len()).filter(|&at| b",\n=".contains(&text[at])).collect();
    if ends.is_empty() {
        return;
    }
    let which = chance.below(ends.len());
    let start = if which == 0 { 0 } else { ends[which - 1] + 1 };
    text.splice(start..ends[which], value(chance));
}

fn stranger(chance: &mut Chance, others: &[&[u8]]) -> Vec<u8> {
    let count = chance.below(3000);
    match chance.below(4) {
        0 => Vec::new(),
        1 => chance.pick(others).to_vec(),
        2 => vec![chance.pick(b"\0\"\n, x\xff"); count],
        _ => chance.bytes(count),
    }
}
