//! Calls of the writer: right ones, and ones with up to five faults.

use super::{numbers, texts};
use crate::boards::{malformed, messages};
use crate::message::MOST_ENTRIES;
use crate::opm::{write, BAD_ANSWER, BAD_STATE, BAD_TEXT, NO_ENTRY, SHORT_BUFFER};
use crate::random::{pick, Random};
use crate::record::{Record, ENTRY, HEAD};
use crate::solve::Entry;
use crate::wire::{put, Vector};

/// The size of a buffer with room for every orbit message.
pub const AMPLE: usize = 800;

/// The arguments of a call of the writer. The position is given by the bits of its floats, and the buffer by
/// its size.
#[derive(Clone, Debug)]
pub struct WriteCall {
    pub answer: Vec<u8>,
    pub entry: u64,
    pub r1: [u64; 3],
    pub texts: Vec<u8>,
    pub room: usize,
}

impl WriteCall {
    /// Returns the result of the writer for this call with the given buffer.
    pub fn write(&self, out: &mut [u8]) -> Result<usize, u8> {
        write(&self.answer, self.entry, self.r1.map(f64::from_bits), &self.texts, out)
    }
}

/// Draws call number `i` of a list of calls that the writer takes. The buffer has exactly the size of the
/// orbit message, or is longer. In a list of 1047 calls or more, a number with every exponent below the bound
/// occurs. Returns the six numbers of the orbit message too.
pub fn right_call(i: u64, r: &mut Random) -> (WriteCall, [f64; 6]) {
    let mut numbers: [f64; 6] = std::array::from_fn(|_| numbers::small(r));
    numbers[i as usize % 6] = numbers::in_turn(i, r);
    let [x, y, z, v1 @ ..] = numbers;
    let entries = 1 + r.below(MOST_ENTRIES as u64);
    let entry = pick(&[1, entries, 1 + r.below(entries)], r);
    let answer = answer(entries, entry, v1, r);
    let mut call =
        WriteCall { answer, entry, r1: [x, y, z].map(f64::to_bits), texts: texts::right(r), room: AMPLE };
    let size = size(&call);
    call.room = pick(&[size, size, size + 1, size + r.below(200) as usize, AMPLE], r);
    (call, numbers)
}

/// Returns the size of the orbit message of a call that the writer takes.
fn size(call: &WriteCall) -> usize {
    call.write(&mut [0; AMPLE]).expect("the call is right")
}

/// Returns an answer in which one entry has the given v1. Everything that an orbit message doesn't
/// contain is random. Some answers are for job 0.
fn answer(entries: u64, chosen: u64, v1: Vector, r: &mut Random) -> Vec<u8> {
    let mut any = || [(); 3].map(|()| f64::from_bits(r.word()));
    let mut velocities: Vec<[Vector; 2]> = (0..entries).map(|_| [any(), any()]).collect();
    velocities[chosen as usize - 1][0] = v1;
    let entry = |velocities| Entry {
        lower: r.word() as i64,
        halvings: r.word() as u32,
        upper_chosen: r.below(2) == 1,
        velocities,
    };
    let outcome = Ok(velocities.into_iter().map(entry).collect());
    Record { job: r.bits(32) as u32 * r.below(4).min(1) as u32, revision: r.bits(32) as u32, outcome }.write()
}

/// The number of a refusal, and a change that gives a call its fault.
type Fault = (u8, fn(&mut WriteCall, &mut Random));

/// The faults in the order in which they are made. A fault must be made before the parts that it needs are
/// spoilt: that of the state needs the entry's number, and that of the entry's number needs the answer.
const FAULTS: [Fault; 5] = [
    (SHORT_BUFFER, |call, r| call.room = short(size(call), r)),
    (BAD_STATE, spoil_state),
    (NO_ENTRY, |call, r| call.entry = other_entry(call, r)),
    (BAD_TEXT, |call, r| call.texts = texts::wrong(r)),
    (BAD_ANSWER, |call, r| call.answer = bad_answer(&call.answer, r)),
];

/// Draws a call with some faults. Returns it with the number of the refusal that is due, if there is one.
pub fn faulty_call(r: &mut Random) -> (WriteCall, Option<u8>) {
    let (mut call, _) = right_call(r.below(1 << 20), r);
    let mut due = None;
    for (number, fault) in FAULTS {
        if r.below(3) == 0 {
            fault(&mut call, r);
            due = Some(number);
        }
    }
    (call, due)
}

fn short(size: usize, r: &mut Random) -> usize {
    pick(&[0, 1, size - 1, size - 1, size - 2, r.below(size as u64) as usize], r)
}

/// Puts a number that is out of range into r1, or into v1 of the entry.
fn spoil_state(call: &mut WriteCall, r: &mut Random) {
    let (i, bad) = (r.below(3) as usize, numbers::large(r));
    if r.below(2) == 0 {
        call.r1[i] = bad.to_bits();
        return;
    }
    let v1 = HEAD + ENTRY * (call.entry as usize - 1) + 16;
    put(&mut call.answer, v1 + 8 * i, &bad.to_le_bytes());
}

/// Draws a number that no entry of the answer has.
fn other_entry(call: &WriteCall, r: &mut Random) -> u64 {
    let entries = ((call.answer.len() - HEAD) / ENTRY) as u64;
    let high = call.entry + (1 << pick(&[8, 16, 31, 32, 48, 63], r));
    pick(&[0, 0, entries + 1, entries + 1, entries + 2, 9, high, high, u64::MAX, r.word() | 1 << 40], r)
}

/// Draws a record that isn't a well-formed answer.
fn bad_answer(answer: &[u8], r: &mut Random) -> Vec<u8> {
    match r.below(8) {
        0 | 1 => messages::refusal(7, 2, r),
        2 => pick(&malformed::faults(&messages::refusal(7, 2, r), r), r),
        _ => pick(&malformed::faults(answer, r), r),
    }
}

#[cfg(test)]
mod tests {
    use super::*;
    use crate::opm::{read, Decimal};
    use std::collections::BTreeMap;

    #[test]
    fn right_calls_are_written_and_read_back() {
        let mut r = Random::new(35);
        for i in 0..500 {
            let (call, numbers) = right_call(i, &mut r);
            let mut out = vec![0; call.room];
            let size = call.write(&mut out).unwrap();
            let rounded = numbers.map(|x| Decimal::nearest(x).unwrap());
            assert_eq!(read(&out[..size]), Some(rounded), "{call:?}");
        }
    }

    #[test]
    fn each_fault_is_one_and_the_first_is_given() {
        let mut r = Random::new(36);
        let mut counts = BTreeMap::new();
        for _ in 0..3000 {
            let (call, due) = faulty_call(&mut r);
            assert_eq!(call.write(&mut vec![0; call.room]).err(), due, "{call:?}");
            *counts.entry(due).or_insert(0) += 1;
        }
        println!("{counts:?}");
        let numbers = [BAD_ANSWER, BAD_TEXT, NO_ENTRY, BAD_STATE, SHORT_BUFFER];
        assert!(numbers.iter().all(|&number| counts[&Some(number)] > 100) && counts[&None] > 100);
    }

    #[test]
    fn some_answers_are_for_job_0() {
        let mut r = Random::new(37);
        let zeros = (0..400).filter(|&i| right_call(i, &mut r).0.answer[6..10] == [0; 4]).count();
        assert!((40..200).contains(&zeros), "{zeros}");
    }
}
