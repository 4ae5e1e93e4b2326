//! Refusals with number 12, which have a void station at their end. Records of every number have a station or lack it,
//! stations have any values, and records for one job and revision differ in the station alone.

use super::damage;
use super::messages::{answer, message, without_station};
use super::steps::List;
use super::{listed, posted};
use crate::message::COUNT;
use crate::random::{pick, Random};
use crate::record::{Record, HEAD, STATION};
use crate::solve::Refusal;
use crate::wire::{put, with, LENGTH};

/// Values of j and of the reason, in range and out of it.
const STATIONS: [i32; 9] = [-4_095, -4_094, -1, 0, 1, 4_095, 16_384, i32::MIN, i32::MAX];
const REASONS: [u16; 8] = [0, 1, 2, 3, 4, 5, 256, u16::MAX];

/// Numbers of refusals: 12, others in force, and some that aren't, two of which have a byte that is 12.
const NUMBERS: [u16; 11] = [0, 1, 2, 5, 11, 12, 13, 14, 15, 0x0C00, 0x010C];

/// The size and the length of a record: those without a station and with one, mixed ones, and others.
const FORMS: [(usize, u32); 12] = [
    (16, 12),
    (22, 18),
    (16, 18),
    (22, 12),
    (18, 14),
    (20, 16),
    (21, 17),
    (23, 19),
    (22, 17),
    (22, 0x0012_0012),
    (28, 24),
    (80, 76),
];

/// Returns a refusal with number 12 and the given station.
pub fn refusal(job: u32, revision: u32, j: i32, reason: u16) -> Vec<u8> {
    Record { job, revision, outcome: Err(Refusal::Void { j, reason }) }.write()
}

/// Returns refusals with each number in each form, all for one job, with rising revisions. The bytes after a station
/// are zeros.
fn forms() -> Vec<Vec<u8>> {
    let every = NUMBERS.iter().flat_map(|&number| FORMS.map(|form| (number, form)));
    let form = |(revision, (number, (size, length))): (u32, (u16, (usize, u32)))| {
        let mut bytes = with(&refusal(7, revision, -4_095, 2), COUNT, &number.to_le_bytes());
        put(&mut bytes, LENGTH, &length.to_le_bytes());
        bytes.resize(size, 0);
        bytes
    };
    (1..).zip(every).map(form).collect()
}

/// Returns a well-formed refusal for each j and each reason. Each j has its own job.
fn every_station() -> Vec<Vec<u8>> {
    let jobs = (1..).zip(STATIONS);
    let of_job = |(job, j): (u32, i32)| {
        (1..).zip(REASONS).map(move |(revision, reason)| refusal(job, revision, j, reason))
    };
    jobs.flat_map(of_job).collect()
}

/// Returns pairs of records for one job and revision. In the first pairs the stations differ in one bit, for every byte
/// of the station. In the others the second record has another number, is an answer, lacks its station, or is equal.
fn pairs(r: &mut Random) -> Vec<[Vec<u8>; 2]> {
    let bits = (0..STATION).flat_map(|at| [1, 0x80].map(|bit| (HEAD + at, bit)));
    let changed = |(at, bit): (usize, u8)| {
        let record = refusal(1 + at as u32 * 256 + u32::from(bit), 5, -1, 2);
        let other = with(&record, at, &[record[at] ^ bit]);
        [record, other]
    };
    let number_11 = |job: u32| Record { job, revision: 5, outcome: Err(Refusal::Number(11)) }.write();
    let mut all: Vec<[Vec<u8>; 2]> = bits.map(changed).collect();
    all.push([refusal(1, 5, 0, 3), number_11(1)]);
    all.push([refusal(2, 5, 0, 3), answer(2, 5, 1, r)]);
    all.push([refusal(3, 5, 0, 3), without_station(refusal(3, 5, 0, 3))]);
    all.push([refusal(4, 5, 0, 3), refusal(4, 5, 0, 3)]);
    all
}

/// Returns lists of the pairs: as they are and reversed, each alone and followed by records that clear some conflicts.
fn conflicts(r: &mut Random) -> Vec<List> {
    let made: Vec<Vec<u8>> = pairs(r).concat();
    let reversed: Vec<Vec<u8>> = made.iter().rev().cloned().collect();
    let again = |revision: u32| (1..=4).map(move |job| refusal(job, revision, i32::MIN, u16::MAX));
    let later: Vec<Vec<u8>> = again(4).chain(again(5)).chain(again(6)).collect();
    [vec![made.clone()], vec![reversed.clone()], vec![made, later.clone()], vec![reversed, later]]
        .map(|parts| listed(parts.concat()))
        .into()
}

/// Returns messages for one to three jobs, most of them with number 12 and one of few stations. One in four is
/// preceded by the same record without its station.
pub fn competing(r: &mut Random) -> Vec<Vec<u8>> {
    let (jobs, revisions) = (1 + r.below(3), 1 + r.below(3));
    let (stations, reasons) = ([(); 2].map(|()| pick(&STATIONS, r)), [(); 2].map(|()| pick(&REASONS, r)));
    let mut all = Vec::new();
    for _ in 0..4 + r.below(20) {
        let (job, revision) = (1 + r.below(jobs) as u32, r.below(revisions) as u32);
        let next = match r.below(6) {
            0 => message(job, revision, r),
            _ => refusal(job, revision, pick(&stations, r), pick(&reasons, r)),
        };
        let short = (r.below(4) == 0).then(|| without_station(next.clone()));
        all.extend(short.into_iter().chain([next]));
    }
    all
}

/// Returns every list about void stations. In the last two, slots hold the records of the first two in turn.
pub fn lists(r: &mut Random) -> Vec<List> {
    let mut all = vec![listed(forms()), listed(every_station())];
    all.extend(conflicts(r));
    all.extend((0..12).flat_map(|_| posted(&competing(r), r)).collect::<Vec<List>>());
    all.push(damage::holding(&forms(), r));
    all.push(damage::holding(&every_station(), r));
    all
}

/// Returns a list that puts some of these records into slots.
pub fn in_slots(r: &mut Random) -> List {
    let records = [forms(), every_station()].concat();
    let some: Vec<Vec<u8>> = (0..20).map(|_| pick(&records, r)).collect();
    damage::holding(&some, r)
}

/// Returns records for a stream: the pairs, some stations and all forms.
pub fn stream(r: &mut Random) -> Vec<Vec<u8>> {
    let mut all = pairs(r).concat();
    all.extend(every_station().into_iter().step_by(5));
    all.extend(forms());
    all
}

/// Returns every station in a well-formed record, with other records between them.
pub fn records() -> Vec<u8> {
    let mut r = Random::new(24);
    every_station().into_iter().flat_map(|record| [record, message(9, 9, &mut r)]).flatten().collect()
}

#[cfg(test)]
mod tests;
