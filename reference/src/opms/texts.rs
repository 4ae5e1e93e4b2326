//! The eight texts of an orbit message as lines, each ended by LF, and lines that the writer refuses.

use crate::opm::{LONGEST_TEXT, TEXT_KEYS};
use crate::random::{pick, Random};

/// Draws eight legal texts.
pub fn right(r: &mut Random) -> Vec<u8> {
    joined(&legal(r))
}

/// Draws lines with a fault: one illegal text, or a wrong number or end of lines.
pub fn wrong(r: &mut Random) -> Vec<u8> {
    let mut texts = legal(r);
    let at = r.below(texts.len() as u64) as usize;
    match r.below(12) {
        0 => joined(&texts[..7]),
        1 => joined(&[texts, vec![text(r)]].concat()),
        2 => joined(&texts)[..joined(&texts).len() - 1].to_vec(),
        3 => [joined(&texts), pick(&[b"\n".to_vec(), b"\0".to_vec(), text(r)], r)].concat(),
        4 => [b"\n".to_vec(), joined(&texts)].concat(),
        5 => {
            texts[at].push(b'\r');
            joined(&texts)
        }
        6 => pick(&[vec![], vec![b'\n'], vec![b'\n'; 8], text(r)], r),
        _ => {
            texts[at] = illegal_text(r);
            joined(&texts)
        }
    }
}

/// Draws a legal text. Half of the time its size is 1, 59 or 60.
pub fn text(r: &mut Random) -> Vec<u8> {
    let size = match r.below(8) {
        0 | 1 => 1,
        2 => LONGEST_TEXT - 1,
        3 => LONGEST_TEXT,
        _ => 1 + r.below(LONGEST_TEXT as u64) as usize,
    };
    let mut bytes: Vec<u8> = (0..size).map(|_| printable(r)).collect();
    for end in [0, size - 1] {
        if bytes[end] == b' ' {
            bytes[end] = pick(b"=!~0A", r);
        }
    }
    bytes
}

/// Draws bytes that are no legal text. They may contain an LF.
pub fn illegal_text(r: &mut Random) -> Vec<u8> {
    let mut bytes = text(r);
    let at = r.below(bytes.len() as u64) as usize;
    match r.below(6) {
        0 => bytes.clear(),
        1 => bytes = vec![printable(r).max(b'!'); LONGEST_TEXT + 1 + pick(&[0, 1, 9, 195, 196, 256], r)],
        2 => bytes[0] = b' ',
        3 => *bytes.last_mut().expect("a text isn't empty") = b' ',
        4 => bytes[at] = b'\n',
        _ => bytes[at] = pick(&[0, 9, 0x0D, 0x1F, 0x7F, 0x80, 0xA0, 0xFF], r),
    }
    bytes
}

/// Draws a printable byte. Blanks and equals signs are frequent.
fn printable(r: &mut Random) -> u8 {
    match r.below(6) {
        0 => b' ',
        1 => b'=',
        _ => 0x20 + r.below(0x5F) as u8,
    }
}

fn legal(r: &mut Random) -> Vec<Vec<u8>> {
    TEXT_KEYS.iter().map(|_| text(r)).collect()
}

fn joined(texts: &[Vec<u8>]) -> Vec<u8> {
    texts.iter().flat_map(|text| text.iter().copied().chain([b'\n'])).collect()
}
