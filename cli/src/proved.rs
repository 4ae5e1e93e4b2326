//! Safe functions around the C interfaces of the proved solver, the proved board and the proved orbit messages.
//! The other unsafe calls of the program are one in terminal.rs and one in standard.rs.
//! SAFETY of each call: a slice is passed as a pointer and its length. The slices live until the call returns and do not overlap.
//! The function keeps none of them, and it is proved to end for every content.

use crate::reason::Reason;
use crate::wire::{u64_at, ROOM};

extern "C" {
    fn lambert_record(question: *const u8, size: usize, out: *mut u8, out_size: usize) -> usize;
    fn lambert_wanted(question: *const u8, size: usize) -> u64;
    fn lambert_stations(question: *const u8, size: usize) -> u64;
    fn lambert_station(i: u16) -> i64;
    fn lambert_time(question: *const u8, size: usize, k: i64) -> u64;
    fn lambert_post(board: *mut u8, board_size: usize, record: *const u8, size: usize) -> u8;
    fn lambert_opm_write(
        answer: *const u8,
        answer_size: usize,
        entry: u64,
        r1_x: u64,
        r1_y: u64,
        r1_z: u64,
        texts: *const u8,
        texts_size: usize,
        out: *mut u8,
        out_size: usize,
    ) -> u64;
    fn lambert_opm_read(message: *const u8, size: usize, state: *mut u8, state_size: usize) -> u8;
}

/// Returns the record of a question. The question may be bytes of any length.
pub fn record_of(question: &[u8]) -> Vec<u8> {
    let mut out = [0; ROOM];
    let size = unsafe { lambert_record(question.as_ptr(), question.len(), out.as_mut_ptr(), out.len()) };
    out[..size].to_vec()
}

/// Returns the bits of a question's wanted time, or all ones if the question does not pass the entrance checks.
pub fn wanted(question: &[u8]) -> u64 {
    unsafe { lambert_wanted(question.as_ptr(), question.len()) }
}

/// Returns the number of a question's stations. It is 0 if the question does not pass the entrance checks.
pub fn station_count(question: &[u8]) -> u64 {
    unsafe { lambert_stations(question.as_ptr(), question.len()) }
}

/// Returns the place of the station with this index. The first station has the index 0.
pub fn station(i: u64) -> i64 {
    unsafe { lambert_station(i as u16) }
}

/// Returns the places of a question's stations. The list is empty if the question does not pass the entrance checks.
pub fn stations(question: &[u8]) -> Vec<i64> {
    (0..station_count(question)).map(station).collect()
}

/// Returns the bits of the time at the place `k` of a question. If the place is void, they are those of a NaN that stands for the
/// reason, and if the question does not pass the entrance checks, they are all ones.
pub fn time(question: &[u8], k: i64) -> u64 {
    unsafe { lambert_time(question.as_ptr(), question.len(), k) }
}

/// Returns the time with these bits, or `None` if they are those of a NaN. No time is a NaN.
pub fn known(bits: u64) -> Option<f64> {
    Some(f64::from_bits(bits)).filter(|time| !time.is_nan())
}

/// Returns the time at the place `k` of a question that passes the entrance checks, or the reason why the place is void.
pub fn time_or_reason(question: &[u8], k: i64) -> Result<f64, Reason> {
    let bits = time(question, k);
    known(bits).ok_or(Reason::of_bits(bits))
}

/// Posts a record to a board. Returns `TAKEN`, or the number of the refusal; a refusal does not change the board.
pub fn post(board: &mut [u8], record: &[u8]) -> u8 {
    unsafe { lambert_post(board.as_mut_ptr(), board.len(), record.as_ptr(), record.len()) }
}

pub const TAKEN: u8 = 255;

/// Returns the orbit message of an entry of an answer, or the number of the refusal: 1 for B1. Entries are
/// counted from 1, `r1` is the position of departure, and `texts` are the eight texts, each ended by LF.
pub fn orbit_message(answer: &[u8], entry: u64, r1: [f64; 3], texts: &[u8]) -> Result<Vec<u8>, u64> {
    let mut out = [0; LONGEST_ORBIT_MESSAGE];
    let [x, y, z] = r1.map(f64::to_bits);
    let (answer_at, texts_at, out_at) = (answer.as_ptr(), texts.as_ptr(), out.as_mut_ptr());
    let (sizes, room) = ((answer.len(), texts.len()), out.len());
    let told =
        unsafe { lambert_opm_write(answer_at, sizes.0, entry, x, y, z, texts_at, sizes.1, out_at, room) };
    match told {
        0..SHORTEST_ORBIT_MESSAGE => Err(told),
        size => Ok(out[..size as usize].to_vec()),
    }
}

/// Returns the six numbers of an orbit message, X, Y, Z, X_DOT, Y_DOT and Z_DOT, or the number of the refusal:
/// 10 for B10. Each is its sign (1 if it is negative), its whole part and its billionths.
pub fn orbit_state(message: &[u8]) -> Result<[[u64; 3]; 6], u8> {
    let mut state = [0; 6 * 3 * 8];
    let (size, room) = (message.len(), state.len());
    let told = unsafe { lambert_opm_read(message.as_ptr(), size, state.as_mut_ptr(), room) };
    let part = |i: usize| u64_at(&state, 8 * i);
    match told {
        0 => Ok(std::array::from_fn(|i| [part(3 * i), part(3 * i + 1), part(3 * i + 2)])),
        number => Err(number),
    }
}

/// The sizes of the shortest and the longest orbit message in bytes. Every number of a refusal is smaller.
const SHORTEST_ORBIT_MESSAGE: u64 = 248;
pub const LONGEST_ORBIT_MESSAGE: usize = 762;

#[cfg(test)]
mod tests;
