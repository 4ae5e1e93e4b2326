//! The lists of messages on which the board is compared: a fixed set of lists, and any number of random ones.

mod damage;
pub(crate) mod malformed;
mod meetings;
pub(crate) mod messages;
mod stage;
mod steps;
mod stream;
mod void_stations;

use crate::board::SLOT;
use crate::random::{pick, Random};
use meetings::{crowd, few, orders, with_faults};
use messages::{answer, message, refusal, without_station};
use steps::{List, Step, LONGEST};

pub use steps::lines as told;
pub use stream::{board, records};
pub use void_stations::records as void_records;

/// Returns the frames of all steps of the fixed lists.
pub fn frames() -> Vec<u8> {
    lists().iter().flat_map(|list| framed(list)).collect()
}

/// Returns the outcome of each fixed list, one line per list.
pub fn lines() -> String {
    told(&frames()).expect("the frames are steps")
}

fn framed(list: &[Step]) -> Vec<u8> {
    list.iter().flat_map(Step::frame).collect()
}

/// Returns the fixed lists. In the first ones that post random messages, refusals with number 12 lack their void
/// station, so the board refuses them. In the last ones they have it.
fn lists() -> Vec<List> {
    let mut r = Random::new(20);
    let mut all = vec![vec![Step::End]];
    for i in 0..44 {
        let faults = if i % 2 == 0 { None } else { Some(5) };
        let short = without_stations(few(&mut r));
        all.extend(posted(&with_faults(short, faults, &mut r), &mut r));
    }
    for jobs in [60, 63, 64, 64, 65, 65, 66, 68, 69, 70, 70] {
        let faults = if jobs % 2 == 0 { Some(12) } else { None };
        let short = without_stations(crowd(jobs, &mut r));
        all.extend(posted(&with_faults(short, faults, &mut r), &mut r));
    }
    all.extend(faulty(&mut r));
    all.extend((0..8).map(|_| damage::sizes(&mut r)));
    all.extend((0..60).map(|_| damage::list(20, &mut r)));
    all.extend([(1, SLOT), (3, 40), (4, 100)].map(|(jobs, width)| damage::every_byte(jobs, width, &mut r)));
    all.extend(void_stations::lists(&mut r));
    for i in 0..12 {
        let sound = if i < 10 { few(&mut r) } else { crowd(66, &mut r) };
        let faults = if i % 2 == 0 { None } else { Some(5) };
        all.extend(posted(&with_faults(sound, faults, &mut r), &mut r));
    }
    all
}

fn without_stations(messages: Vec<Vec<u8>>) -> Vec<Vec<u8>> {
    messages.into_iter().map(without_station).collect()
}

/// Returns one list for each order of the messages.
fn posted(messages: &[Vec<u8>], r: &mut Random) -> Vec<List> {
    orders(messages, r).map(listed).into()
}

fn listed(messages: Vec<Vec<u8>>) -> List {
    messages.into_iter().map(Step::Post).chain([Step::End]).collect()
}

/// Returns lists with every fault of a refusal and of an answer, and lists of records with many sizes below
/// 600 and the two largest sizes. Each list also contains messages that the board takes.
fn faulty(r: &mut Random) -> Vec<List> {
    let mut all = Vec::new();
    for base in [refusal(5, 5, r), answer(5, 5, 1, r), answer(5, 5, 8, r)] {
        let sound = [message(4, 5, r), base.clone()];
        all.push([&sound[..], &malformed::faults(&base, r), &[malformed::nobody(&base)]].concat());
    }
    let whole = answer(5, 5, 8, r);
    let telling = |size: &usize| *size < 24 || (14..18).contains(&(size % 64)) || size.is_multiple_of(41);
    let sizes: Vec<usize> = (0..600).filter(telling).chain([LONGEST - 1, LONGEST]).collect();
    for sized in [malformed::resized, malformed::agreed] {
        let cut = sizes.iter().map(|&size| sized(&whole, size, r));
        all.push(cut.chain([whole.clone()]).collect());
    }
    all.into_iter().map(listed).collect()
}

/// Returns the frames of `n` random cases. A case is a set of messages, posted in several orders, or a list
/// that damages a board.
pub fn random(n: u64, seed: u64) -> impl Iterator<Item = Vec<u8>> {
    let mut r = Random::new(seed);
    (0..n).map(move |_| fresh(&mut r).iter().flat_map(|list| framed(list)).collect())
}

fn fresh(r: &mut Random) -> Vec<List> {
    let faults = pick(&[None, Some(3), Some(12)], r);
    match r.below(16) {
        0 => {
            let messages = crowd(60 + r.below(11) as usize, r);
            posted(&with_faults(messages, faults, r), r)
        }
        1 => vec![damage::sizes(r)],
        2 | 3 => vec![damage::list(20, r)],
        4 => vec![void_stations::in_slots(r)],
        5..=7 => {
            let messages = void_stations::competing(r);
            posted(&with_faults(messages, faults, r), r)
        }
        _ => {
            let messages = few(r);
            posted(&with_faults(messages, faults, r), r)
        }
    }
}

#[cfg(test)]
mod tests;
