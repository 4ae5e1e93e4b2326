//! Questions that are refused: with every number that the entrance checks can give to a whole slot, and with number 11.

use super::flights::{flight, KINDS};
use super::timing::{curve, problem, second};
use super::Slot;
use crate::entrance::{judge, MOST_REVOLUTIONS, ROOM};
use crate::questions::{self, document, earth};
use crate::random::Random;
use crate::wire::{Question, QUESTION_SIZE};

/// How many questions of each number are taken from the list for the entrance checks.
const EACH: usize = 12;

/// Returns 01's worked question, then questions for each cause of number 1, then some of every number.
pub fn every_number(r: &mut Random) -> Vec<Slot> {
    let mut all: Vec<Slot> = vec![document().write()];
    all.extend(forms().iter().map(Question::write));
    let cases = questions::cases();
    let whole: Vec<&[u8]> = cases.iter().map(|c| &c.bytes[..]).filter(|b| b.len() == QUESTION_SIZE).collect();
    for number in (1..=10).filter(|&n| n != 7) {
        let such: Vec<_> = whole.iter().filter(|b| judge(b, ROOM).err() == Some(number)).collect();
        all.extend((0..EACH).map(|_| *such[r.below(such.len() as u64) as usize]).filter_map(slot));
    }
    all
}

fn slot(bytes: &[u8]) -> Option<Slot> {
    bytes.try_into().ok()
}

/// Returns questions with number 1 because of each field, alone and together with faults that are checked later.
fn forms() -> Vec<Question> {
    let mut all = Vec::new();
    for base in [earth(), Question { mu: 0.5, ..earth() }, Question { revolutions: 17, ..document() }] {
        all.extend([0, 77, 79, 82, 78 << 8].map(|length| Question { length, ..base }));
        all.extend([0, 2, 3, 257].map(|kind| Question { kind, ..base }));
        all.push(Question { job: 0, ..base });
        all.extend([2, 255].map(|way| Question { way, ..base }));
        all.extend([1, 128].map(|spare| Question { spare, ..base }));
    }
    all
}

/// Returns questions for every number of revolutions whose time is shorter than the least or longer than
/// the greatest time of the stations, by a little or by much.
pub fn without_time(r: &mut Random) -> Vec<Question> {
    let mut all = Vec::new();
    for m in 0..=MOST_REVOLUTIONS {
        for share in [0.5, 0.999_999, 1.000_001, 3.0] {
            let kind = KINDS[r.below(4) as usize];
            let q = flight(kind, m, r.below(2) as u8, r);
            let Some(p) = problem(&q) else { continue };
            let times: Vec<f64> = curve(&p).into_iter().flatten().collect();
            let least = times.iter().copied().fold(f64::INFINITY, f64::min);
            let longest = times.iter().copied().fold(0.0, f64::max);
            let end = if share < 1.0 { least } else { longest };
            all.push(Question { time: share * end / second(&p), ..q });
        }
    }
    all
}
