//! The steps that the compared program performs. Each is a u16 command followed by its data, all little-endian.

use super::stage::Stage;

/// A command up to this value is the size of the record that follows.
pub const LONGEST: usize = 1024;

const END: u16 = 0xFFFF;
const SET: u16 = 0xFFFE;
const LEND: u16 = 0xFFFD;

#[derive(Clone, Debug, PartialEq, Eq)]
pub enum Step {
    /// Post a record.
    Post(Vec<u8>),
    /// Write a byte at an offset of the state.
    Set(u32, u8),
    /// Lend this many bytes of the state as the board.
    Lend(u32),
    /// End the list: report the hash of the lent bytes, and start again with a new state.
    End,
}

/// The steps that produce one line. The last of them is `End`.
pub type List = Vec<Step>;

impl Step {
    pub fn frame(&self) -> Vec<u8> {
        match self {
            Step::Post(record) => [&(record.len() as u16).to_le_bytes()[..], record].concat(),
            Step::Set(place, value) => [&SET.to_le_bytes()[..], &place.to_le_bytes(), &[*value]].concat(),
            Step::Lend(size) => [&LEND.to_le_bytes()[..], &size.to_le_bytes()].concat(),
            Step::End => END.to_le_bytes().to_vec(),
        }
    }

    /// Reads the step at the beginning of the bytes and advances the bytes past it. Returns None if there is no valid step.
    fn read(bytes: &mut &[u8]) -> Option<Step> {
        match u16::from_le_bytes(take(bytes)?) {
            END => Some(Step::End),
            SET => Some(Step::Set(u32::from_le_bytes(take(bytes)?), u8::from_le_bytes(take(bytes)?))),
            LEND => Some(Step::Lend(u32::from_le_bytes(take(bytes)?))),
            size if usize::from(size) <= LONGEST => {
                let (record, rest) = bytes.split_at_checked(size.into())?;
                *bytes = rest;
                Some(Step::Post(record.to_vec()))
            }
            _ => None,
        }
    }
}

/// Returns the first `N` bytes and advances the bytes past them. Returns None if there are fewer.
fn take<const N: usize>(bytes: &mut &[u8]) -> Option<[u8; N]> {
    let (first, rest) = bytes.split_first_chunk()?;
    *bytes = rest;
    Some(*first)
}

/// Performs all steps of a file and returns their reports, one line for each list. Returns None if the
/// bytes aren't valid steps.
pub fn lines(mut frames: &[u8]) -> Option<String> {
    let (mut stage, mut told) = (Stage::new(), String::new());
    while !frames.is_empty() {
        told += &stage.play(&Step::read(&mut frames)?);
    }
    Some(told)
}
