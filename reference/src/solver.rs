//! The questions on which the whole solver is compared: a fixed list, and any number of random ones.

mod damage;
mod flights;
mod meetings;
mod refusals;
mod timing;

use crate::entrance::MOST_REVOLUTIONS;
use crate::random::Random;
use crate::record::replies;
use crate::wire::{Question, QUESTION_SIZE};
use flights::{KINDS, MISSIONS};

type Slot = [u8; QUESTION_SIZE];

/// The size of the short slot at the end of the list.
const SHORT: usize = 41;

/// Returns the slots of the list, with the short one at the end.
pub fn questions() -> Vec<u8> {
    let all = slots();
    let short = &all[0][..SHORT];
    [all.as_flattened(), short].concat()
}

/// Returns the records for the slots of the list.
pub fn answers() -> Vec<u8> {
    replies(&questions()).flatten().collect()
}

/// Returns the slots of the list without the short one.
pub(crate) fn slots() -> Vec<Slot> {
    let mut r = Random::new(12);
    let mut sound = every_revolution(&mut r);
    sound.extend(meetings::questions(&mut r));
    sound.extend(refusals::without_time(&mut r));
    let mut all = refusals::every_number(&mut r);
    all.extend(sound.iter().map(Question::write));
    all.extend((0..150).map(|_| damage::one_byte(&sound[r.below(sound.len() as u64) as usize], &mut r)));
    all
}

/// Returns questions for every number of revolutions and both ways, each with every kind of flight. There
/// are more of them without revolutions.
fn every_revolution(r: &mut Random) -> Vec<Question> {
    let mut all = Vec::new();
    for m in 0..=MOST_REVOLUTIONS {
        let times = if m == 0 { 5 } else { 2 };
        for _ in 0..times {
            for way in [0, 1] {
                let flown = KINDS.map(|kind| flights::flight(kind, m, way, r));
                all.extend(flown.map(|q| timing::anyhow(q, r)));
            }
        }
    }
    all
}

/// Returns `n` random questions: flights of every kind, some with a damaged byte.
pub fn random(n: u64, seed: u64) -> impl Iterator<Item = Slot> {
    let mut r = Random::new(seed);
    (0..n).map(move |_| {
        let kind = KINDS[r.below(KINDS.len() as u64) as usize];
        let revolutions = r.below(u64::from(MOST_REVOLUTIONS) + 1) as u16;
        let flown = flights::flight(kind, revolutions, r.below(2) as u8, &mut r);
        let question = match r.below(8) {
            0 => meetings::met(flown, &mut r),
            _ => timing::anyhow(flown, &mut r),
        };
        match r.below(12) {
            0 => damage::one_byte(&question, &mut r),
            _ => question.write(),
        }
    })
}

/// Returns `n` random questions as missions ask them: around the Earth, to the Moon and around the Sun,
/// with moderate times. Half of them are drawn without revolutions, the others with 0 to 16.
pub fn missions(n: u64, seed: u64) -> impl Iterator<Item = Slot> {
    let mut r = Random::new(seed);
    (0..n).map(move |_| {
        let kind = MISSIONS[r.below(MISSIONS.len() as u64) as usize];
        let most = if r.below(2) == 0 { 0 } else { MOST_REVOLUTIONS };
        let revolutions = r.below(u64::from(most) + 1) as u16;
        let flown = flights::flight(kind, revolutions, r.below(2) as u8, &mut r);
        timing::moderate(flown, &mut r).write()
    })
}

#[cfg(test)]
mod tests;
