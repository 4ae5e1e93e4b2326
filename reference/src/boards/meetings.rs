//! Messages that compete on a board: many for few jobs and few revisions, and some for more jobs than a
//! board holds.

use super::malformed;
use super::messages::{message, refusal, variant};
use super::pick;
use crate::random::Random;

/// Returns messages for 1 to 5 jobs: new ones, repetitions of earlier ones, and earlier ones with one byte changed.
pub fn few(r: &mut Random) -> Vec<Vec<u8>> {
    let jobs = jobs(r.below(5) as usize + 1, r);
    let (lowest, revisions) = (pick(&[0, 1, 0x7FFF_FFFE, u32::MAX - 3], r), 1 + r.below(4));
    let mut all: Vec<Vec<u8>> = Vec::new();
    for _ in 0..4 + r.below(28) {
        let (job, revision) = (pick(&jobs, r), lowest + r.below(revisions) as u32);
        let next = match r.below(4) {
            0 if !all.is_empty() => pick(&all, r),
            1 if !all.is_empty() => variant(&pick(&all, r), r),
            _ => message(job, revision, r),
        };
        all.push(next);
    }
    all
}

/// Returns one to three messages for each of the given number of jobs, in random order.
pub fn crowd(jobs_in_all: usize, r: &mut Random) -> Vec<Vec<u8>> {
    let mut all = Vec::new();
    for job in jobs(jobs_in_all, r) {
        for _ in 0..1 + r.below(3) {
            let revision = r.below(3) as u32;
            all.push(if r.below(4) == 0 { message(job, revision, r) } else { refusal(job, revision, r) });
        }
    }
    shuffled(all, r)
}

/// Returns `n` different jobs: consecutive ones from 1, the highest ones, ones with small values in
/// different bytes, or random ones.
fn jobs(n: usize, r: &mut Random) -> Vec<u32> {
    let sort = r.below(4);
    let mut all = Vec::new();
    while all.len() < n {
        let i = all.len() as u32;
        let job = match sort {
            0 => 1 + i,
            1 => u32::MAX - i,
            2 => (1 + i % 3) << (8 * r.below(4)) | i << 4,
            _ => r.bits(32) as u32,
        };
        if job != 0 && !all.contains(&job) {
            all.push(job);
        }
    }
    all
}

/// Inserts malformed messages and messages for job 0. If `faults` is Some(n), about one message in n is preceded by
/// one of these.
pub fn with_faults(sound: Vec<Vec<u8>>, faults: Option<u64>, r: &mut Random) -> Vec<Vec<u8>> {
    let Some(n) = faults else { return sound };
    let faulty = |message: Vec<u8>| match r.below(n) {
        0 => vec![malformed::any(&message, r), message],
        _ => vec![message],
    };
    sound.into_iter().flat_map(faulty).collect()
}

/// Returns the messages in four orders: as given, reversed, shuffled with some of them repeated, and
/// shuffled without repetitions.
pub fn orders(messages: &[Vec<u8>], r: &mut Random) -> [Vec<Vec<u8>>; 4] {
    let made = messages.to_vec();
    let reversed = messages.iter().rev().cloned().collect();
    let again: Vec<Vec<u8>> = made.iter().filter(|_| r.below(4) == 0).cloned().collect();
    let repeated = shuffled([&made[..], &again].concat(), r);
    let other = shuffled(made.clone(), r);
    [made, reversed, repeated, other]
}

pub fn shuffled<T>(mut all: Vec<T>, r: &mut Random) -> Vec<T> {
    for i in (1..all.len()).rev() {
        all.swap(i, r.below(i as u64 + 1) as usize);
    }
    all
}
