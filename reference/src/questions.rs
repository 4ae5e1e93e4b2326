//! The questions on which the entrance checks are compared, in a fixed order.

mod bounds;
mod damage;
mod edges;
mod order;
mod ordinary;
mod patterns;
pub(crate) mod shapes;
mod thin;

use crate::entrance::ROOM;
use crate::random::Random;
use crate::wire::Question;

/// The size of the longest question of the list, and the size of a frame that holds any of them.
pub const LONGEST: usize = 120;
pub const FRAME: usize = 4 + LONGEST;

/// The input of the entrance checks: the bytes of a question, and the size of the answer buffer.
#[derive(Clone, Debug)]
pub struct Case {
    pub bytes: Vec<u8>,
    pub room: u16,
}

impl Case {
    fn new(bytes: &[u8], room: u16) -> Case {
        Case { bytes: bytes.to_vec(), room }
    }

    /// Returns the size and the room, each as a u16, little-endian, then the bytes, padded with zeros to
    /// the end of the frame.
    pub fn frame(&self) -> [u8; FRAME] {
        let mut frame = [0; FRAME];
        frame[..2].copy_from_slice(&(self.bytes.len() as u16).to_le_bytes());
        frame[2..4].copy_from_slice(&self.room.to_le_bytes());
        frame[4..4 + self.bytes.len()].copy_from_slice(&self.bytes);
        frame
    }
}

/// Returns every case of the comparison.
pub fn cases() -> Vec<Case> {
    let mut r = Random::new(8);
    let mut whole = ordinary::questions(&mut r);
    let sound = whole.clone();
    whole.extend(edges::radii(&mut r));
    whole.extend(thin::planes(&mut r));
    whole.extend(thin::chords(&mut r));
    whole.extend(thin::flats(&mut r));
    whole.extend(thin::opposites(&mut r));
    let mut all: Vec<Case> = whole.iter().map(|q| Case::new(&q.write(), enough(&mut r))).collect();
    all.extend(patterns::floats());
    all.extend(bounds::fields());
    all.extend(bounds::sizes(&mut r));
    all.extend(bounds::rooms(&sound));
    all.extend(order::faults());
    all.extend(damage::damaged(&sound, &mut r));
    all.extend(damage::noise(&mut r));
    all
}

/// Draws a sufficient room, half of the time the smallest one.
fn enough(r: &mut Random) -> u16 {
    match r.below(4) {
        0 => ROOM as u16 + r.below(2000) as u16,
        1 => u16::MAX,
        _ => ROOM as u16,
    }
}

/// Returns 01's worked question: job 7, revision 2, M = 1, short way.
pub(crate) fn document() -> Question {
    Question {
        length: crate::wire::QUESTION_LENGTH,
        kind: crate::wire::QUESTION_KIND,
        job: 7,
        revision: 2,
        revolutions: 1,
        way: 0,
        spare: 0,
        position1: [1.0, 0.0, 0.0],
        position2: [0.0, 1.0, 0.0],
        mu: 1.0,
        time: 1.0,
    }
}

/// Returns a question around the Earth, in km and s.
pub(crate) fn earth() -> Question {
    Question {
        job: 0x0102_0304,
        revision: 0x0506_0708,
        revolutions: 0,
        way: 1,
        position1: [5000.0, 10000.0, 2100.0],
        position2: [-14600.0, 2500.0, 7000.0],
        mu: 398600.4418,
        time: 3600.0,
        ..document()
    }
}

#[cfg(test)]
mod tests;
