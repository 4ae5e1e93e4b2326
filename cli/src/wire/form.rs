//! The rules of the format for the bytes of a record. They do not depend on the meaning of an entry's numbers.

use super::refusal::INCOMPLETE;
use super::{u16_at, u32_at};

pub const HEAD: usize = 16;
pub const ENTRY: usize = 64;
/// The size of what refusal 12 has after its head: j of the first void station, an i32, and the reason, a u16.
pub const VOID_STATION: usize = 6;
/// The size of the longest record: an answer with eight entries.
pub const ROOM: usize = HEAD + 8 * ENTRY;
/// The position of the chosen end in an entry.
const CHOSEN: usize = 12;

/// Returns the size of the record with this head, or what is wrong with the head.
pub fn size_of(head: &[u8]) -> Result<usize, (usize, String)> {
    let (length, kind, n) = (u32_at(head, 0), u16_at(head, 4), u16_at(head, 14));
    let after = match (kind, n) {
        (2, 1..=8) => ENTRY * usize::from(n),
        (2, _) => return Err((14, format!("n is {n}, not 1 to 8"))),
        (3, INCOMPLETE) => VOID_STATION,
        (3, 1..=14) => 0,
        (3, _) => return Err((14, format!("number is {n}, not 1 to 14"))),
        _ => return Err((4, format!("kind is {kind}, not 2 or 3"))),
    };
    let own = HEAD - 4 + after;
    if length as usize != own {
        let words = if kind == 2 { format!("n = {n}") } else { format!("refusal {n}") };
        return Err((0, format!("length is {length}, but {words} has the length {own}")));
    }
    Ok(4 + own)
}

/// Checks the entries of an answer whose head is correct and whose size is the one that its head gives.
fn entries(bytes: &[u8]) -> Result<(), (usize, String)> {
    for (i, entry) in bytes[HEAD..].chunks(ENTRY).enumerate() {
        let chosen = u32_at(entry, CHOSEN);
        if chosen > 1 {
            let words = format!("entry {}: chosen end is {chosen}, not 0 or 1", i + 1);
            return Err((HEAD + ENTRY * i + CHOSEN, words));
        }
    }
    Ok(())
}

/// Checks a record that was split off its input by its length. Returns what is wrong with it.
pub fn framed(bytes: &[u8]) -> Result<(), (usize, String)> {
    if bytes.len() < HEAD {
        return Err((0, format!("length is {}, but no record is shorter than 12", bytes.len() - 4)));
    }
    size_of(&bytes[..HEAD])?;
    match u16_at(bytes, 4) {
        2 => entries(bytes),
        // Any j and any reason may follow the head of refusal 12.
        _ => Ok(()),
    }
}
