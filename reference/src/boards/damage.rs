//! Lists that damage a board or lend it with another size, post to it, and restore it.

use super::malformed;
use super::messages::{message, refusal, variant};
use super::pick;
use super::stage::{Stage, ROOM};
use super::steps::{List, Step};
use crate::board::{conflict, SIZE, SLOT, SLOTS};
use crate::random::Random;
use crate::record::HEAD;
use crate::wire::{part, put, with, JOB, KIND, LENGTH};

/// A list under construction, and the state after its steps so far.
struct Script {
    stage: Stage,
    steps: List,
}

impl Script {
    /// Returns a script that fills a board with records and conflicts for the given number of jobs.
    fn filled(jobs: usize, r: &mut Random) -> Script {
        let mut script = Script { stage: Stage::new(), steps: Vec::new() };
        let apart = 1 + r.bits(16) as u32;
        for job in (1..=jobs as u32).map(|i| i * apart) {
            let record = if r.below(8) == 0 { message(job, 5, r) } else { refusal(job, 5, r) };
            let conflicting = (r.below(5) == 0).then(|| variant(&record, r));
            script.step(Step::Post(record));
            conflicting.into_iter().for_each(|other| script.step(Step::Post(other)));
        }
        script
    }

    fn step(&mut self, step: Step) {
        self.stage.play(&step);
        self.steps.push(step);
    }

    /// Changes the state to the given bytes, with one step for each byte that differs.
    fn turn_to(&mut self, state: &[u8]) {
        let differ = |&(place, value): &(usize, u8)| self.stage.state[place] != value;
        let places: Vec<_> = state.iter().copied().enumerate().filter(differ).collect();
        places.into_iter().for_each(|(place, value)| self.step(Step::Set(place as u32, value)));
    }

    /// Damages the board, posts a record, and restores the board.
    fn round(&mut self, damaged: &[u8], record: Vec<u8>) {
        let sound = self.stage.state.clone();
        self.turn_to(damaged);
        self.step(Step::Post(record));
        self.turn_to(&sound);
    }

    fn end(mut self) -> List {
        self.steps.push(Step::End);
        self.steps
    }
}

/// Returns a list that damages the board once in each round, in a randomly chosen way (see `damage`).
pub fn list(rounds: usize, r: &mut Random) -> List {
    let jobs = pick(&[1, 2, 3, 10, SLOTS - 1, SLOTS], r);
    let mut script = Script::filled(jobs, r);
    for _ in 0..rounds {
        let mut state = script.stage.state.clone();
        damage(&mut state, jobs, r);
        script.round(&state, posted(&script.stage.state, jobs, r));
    }
    script.end()
}

/// Returns a list that changes single bytes: in turn, each of the first `width` bytes of the filled slots
/// and of the slot after them.
pub fn every_byte(jobs: usize, width: usize, r: &mut Random) -> List {
    let mut script = Script::filled(jobs, r);
    for place in (0..=jobs).flat_map(|slot| (0..width).map(move |at| SLOT * slot + at)) {
        let mut state = script.stage.state.clone();
        state[place] ^= pick(&[1, 2, 0x80, 0xFF], r);
        script.round(&state, posted(&script.stage.state, jobs, r));
    }
    script.end()
}

/// Returns a list that puts each of the records into a slot in turn, with the slot's job and followed by zeros.
pub fn holding(records: &[Vec<u8>], r: &mut Random) -> List {
    let jobs = 3;
    let mut script = Script::filled(jobs, r);
    for record in records {
        let mut state = script.stage.state.clone();
        let slot = SLOT * r.below(jobs as u64) as usize;
        let job: [u8; 4] = part(&state, slot + JOB);
        hold(&mut state, slot, &with(record, JOB, &job));
        script.round(&state, posted(&script.stage.state, jobs, r));
    }
    script.end()
}

/// Returns a list that lends the board with other sizes. It also sets a byte after the board. The hash at
/// the end covers the board alone or that byte too.
pub fn sizes(r: &mut Random) -> List {
    let jobs = pick(&[1, 10, SLOTS], r);
    let mut script = Script::filled(jobs, r);
    script.step(Step::Set((SIZE + r.below(SLOT as u64) as usize) as u32, 1));
    let any = r.below(ROOM as u64) as usize;
    for size in [0, 1, SLOT, any, SIZE - SLOT, SIZE - 1, SIZE + 1, ROOM, ROOM + 1, SIZE] {
        script.step(Step::Lend(size as u32));
        let record = posted(&script.stage.state, jobs, r);
        script.step(Step::Post(record));
    }
    script.step(Step::Lend(pick(&[SIZE as u32, u32::MAX], r)));
    script.end()
}

/// Draws the record that is posted to a damaged board: mostly one for a job that the board holds, else one for a random
/// job, a malformed one, or one for job 0. If the board is bad, it must be refused before any fault of the record.
fn posted(state: &[u8], jobs: usize, r: &mut Random) -> Vec<u8> {
    let slot = SLOT * r.below(jobs as u64) as usize;
    let job = u32::from_le_bytes(part(state, slot + JOB));
    let known = refusal(job, 4 + r.below(3) as u32, r);
    match r.below(8) {
        0 => malformed::any(&known, r),
        1 => malformed::nobody(&known),
        2 | 3 => refusal(r.bits(20) as u32, 1, r),
        _ => known,
    }
}

/// Damages the first `jobs` slots or the bytes after them in one randomly chosen way. Some ways leave the board valid.
fn damage(state: &mut [u8], jobs: usize, r: &mut Random) {
    let slot = SLOT * r.below(jobs as u64) as usize;
    let job = u32::from_le_bytes(part(state, slot + JOB));
    let next = SLOT * (slot / SLOT + 1).min(jobs - 1);
    let size = u32::from_le_bytes(part(state, slot + LENGTH)) as usize + 4;
    match r.below(14) {
        0 => state[r.below(SIZE as u64) as usize] ^= 1 << r.below(8),
        1 => state[slot + r.below(HEAD as u64) as usize] = r.bits(8) as u8,
        2 => state[slot + pick(&[size.min(SLOT - 1), SLOT - 1], r)] ^= 1,
        3 => behind(state, jobs, r),
        4 => swap(state, slot, next),
        5 => swap(state, slot, SLOT * r.below(jobs as u64) as usize),
        6 => hold(state, slot, &[]),
        7 => state.copy_within(slot..slot + SLOT, next),
        8 => hold(state, next, &refusal(job, 6, r)),
        9 => {
            let wrong = malformed::any(&message(job, 5, r), r);
            hold(state, slot, &wrong[..wrong.len().min(SLOT)]);
        }
        10 => hold(state, slot, &wrong_conflict(job, r)),
        11 => hold(state, slot, &conflict(job, r.below(9) as u32)),
        12 => put(state, JOB, &[0; 4]),
        _ => hold(state, slot, &message(job, 5, r)),
    }
}

/// Writes one byte into the first free slot or changes the board's last byte, or writes a record into the
/// slot after the first free one. If that slot doesn't exist, the write goes to the bytes after the board.
fn behind(state: &mut [u8], jobs: usize, r: &mut Random) {
    let free = SLOT * jobs;
    match r.below(4) {
        0 => state[free] = 12,
        1 => state[free + r.below(SLOT as u64) as usize] = 1 + r.below(255) as u8,
        2 => state[SIZE - 1] ^= 1,
        _ => hold(state, (free + SLOT).min(SIZE), &refusal(u32::MAX, 1, r)),
    }
}

/// Returns a conflict with a wrong length, kind or job.
fn wrong_conflict(job: u32, r: &mut Random) -> Vec<u8> {
    let mut bytes = conflict(job, 5);
    match r.below(3) {
        0 => put(&mut bytes, LENGTH, &pick(&[0u32, 9, 11, 12, 14, 266, 524, u32::MAX], r).to_le_bytes()),
        1 => put(&mut bytes, KIND, &pick(&[0u16, 1, 2, 3, 5, 260, 0x0400], r).to_le_bytes()),
        _ => put(&mut bytes, JOB, &[0; 4]),
    }
    bytes
}

/// Fills the slot at offset `at` with the given bytes and then zeros.
fn hold(state: &mut [u8], at: usize, bytes: &[u8]) {
    state[at..at + SLOT].fill(0);
    put(state, at, bytes);
}

fn swap(state: &mut [u8], a: usize, b: usize) {
    let [first, second]: [[u8; SLOT]; 2] = [part(state, a), part(state, b)];
    put(state, a, &second);
    put(state, b, &first);
}
