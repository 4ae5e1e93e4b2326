//! Calls of the reader with bytes that are an orbit message or nearly one.

use super::near_misses::{changes, number_line, with_value};
use crate::opm::{read_state, STATE_SIZE};
use crate::random::{pick, Random};

/// The arguments of a call of the reader. The state is given by its size.
#[derive(Clone, Debug)]
pub struct ReadCall {
    pub message: Vec<u8>,
    pub room: usize,
}

impl ReadCall {
    /// Returns the result of the reader for this call with the given state.
    pub fn read(&self, state: &mut [u8]) -> Result<(), u8> {
        read_state(&self.message, state)
    }
}

/// Numbers in the exact form that an orbit message rarely has. No float rounds to some of them.
const NUMBERS: [&str; 8] = [
    "9999999.999999999",
    "-9999999.999999999",
    "0.000000001",
    "-0.000000001",
    "0.000000000",
    "1000000.000000000",
    "-1234567.012345678",
    "8999999.900000009",
];

/// Draws a call whose bytes are a changed orbit message. After most changes they are not an orbit message;
/// after a change of a random byte they may be one, and with another number they are one. In some calls there
/// is no room for the state.
pub fn near_miss(message: &[u8], r: &mut Random) -> ReadCall {
    let changed = match r.below(8) {
        0 => with_value(message, number_line(r), |_| pick(&NUMBERS, r).into()),
        1 | 2 => randomly_changed(message, r),
        _ => pick(&changes(), r)(message, r),
    };
    ReadCall { message: changed, room: room(r) }
}

/// Draws the size of the state. In one of four cases it is too short.
fn room(r: &mut Random) -> usize {
    let size = STATE_SIZE;
    match r.below(4) {
        0 => pick(&[0, 1, size - 1, size - 8, r.below(size as u64) as usize], r),
        1 => size + r.below(40) as usize,
        _ => size,
    }
}

/// Changes, leaves out or adds a byte anywhere.
fn randomly_changed(message: &[u8], r: &mut Random) -> Vec<u8> {
    let mut bytes = message.to_vec();
    let at = r.below(bytes.len() as u64) as usize;
    let byte = pick(&[r.bits(8) as u8, b'\n', b' ', b'0' + r.below(10) as u8, b'.', b'-', b'='], r);
    match r.below(5) {
        0 => bytes[at] ^= 1 << r.below(8),
        1 => bytes[at] = byte,
        2 => drop(bytes.remove(at)),
        3 => bytes.insert(at, byte),
        _ => bytes.insert(at, bytes[at]),
    }
    bytes
}

#[cfg(test)]
mod tests {
    use super::*;
    use crate::opm::{NOT_A_MESSAGE, SHORT_BUFFER};
    use crate::opms::right_call;
    use std::collections::BTreeMap;

    #[test]
    fn every_outcome_occurs() {
        let mut r = Random::new(39);
        let mut counts = BTreeMap::new();
        for i in 0..2000 {
            let (call, _) = right_call(i, &mut r);
            let mut out = vec![0; call.room];
            let size = call.write(&mut out).unwrap();
            let miss = near_miss(&out[..size], &mut r);
            *counts.entry(miss.read(&mut vec![0; miss.room])).or_insert(0) += 1;
        }
        println!("{counts:?}");
        assert!(
            counts[&Ok(())] > 200 && counts[&Err(SHORT_BUFFER)] > 50 && counts[&Err(NOT_A_MESSAGE)] > 1000
        );
    }
}
