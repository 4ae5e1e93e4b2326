//! Posts to a board, with the proved code and with the reference.

mod compare;
mod time;

pub use compare::compare;
pub use time::time;

use crate::proved;
use reference::board;
use reference::random::Random;
use reference::record::Record;
use reference::solve::{Entry, Refusal};

/// What the C interface returns for a record that the board takes. For a refusal it returns the number, 0 for B0 to 3 for B3.
const TAKEN: u8 = 255;

fn ours(board: &mut [u8], record: &[u8]) -> u8 {
    proved::post(board, record)
}

fn theirs(board: &mut [u8], record: &[u8]) -> u8 {
    board::post(board, record).err().unwrap_or(TAKEN)
}

/// Returns an answer with `entries` entries, whose velocities are random bits, or a refusal if `entries` is 0. One refusal
/// in four has number 12 and a void station.
fn record(job: u32, revision: u32, entries: u64, random: &mut Random) -> Vec<u8> {
    let mut entry = || {
        let velocities = [(); 2].map(|()| [(); 3].map(|()| f64::from_bits(random.word())));
        Entry { lower: 1, halvings: 20, upper_chosen: random.below(2) == 1, velocities }
    };
    let answer: Vec<Entry> = (0..entries).map(|_| entry()).collect();
    let outcome = if answer.is_empty() { Err(refusal(random)) } else { Ok(answer) };
    Record { job, revision, outcome }.write()
}

fn refusal(random: &mut Random) -> Refusal {
    match random.below(4) {
        0 => Refusal::Void { j: random.below(2) as i32 - 1, reason: 2 + random.below(2) as u16 },
        number => Refusal::Number(number as u16),
    }
}
