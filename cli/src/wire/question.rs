//! A question and its slot of 82 bytes.

use super::{f64_at, read_full, u16_at, u32_at};
use std::io::{self, Read};

/// The size of a question in bytes.
pub const SLOT: usize = 82;

#[derive(Clone, Debug, PartialEq)]
pub struct Question {
    pub job: u32,
    pub revision: u32,
    pub revolutions: u16,
    pub long_way: bool,
    pub r1: [f64; 3],
    pub r2: [f64; 3],
    pub mu: f64,
    pub time: f64,
}

impl Question {
    pub const LENGTH: u32 = 78;
    pub const KIND: u16 = 1;

    pub fn bytes(&self) -> Vec<u8> {
        let mut slot = Vec::with_capacity(SLOT);
        slot.extend(Self::LENGTH.to_le_bytes());
        slot.extend(Self::KIND.to_le_bytes());
        slot.extend(self.job.to_le_bytes());
        slot.extend(self.revision.to_le_bytes());
        slot.extend(self.revolutions.to_le_bytes());
        slot.extend([self.long_way.into(), 0]);
        let numbers = self.r1.iter().chain(&self.r2).chain([&self.mu, &self.time]);
        numbers.for_each(|number| slot.extend(number.to_le_bytes()));
        slot
    }

    /// Reads the question in a slot. If it is not a question, returns the position of the fault in the slot and the reason.
    pub fn read(slot: &[u8]) -> Result<Question, (usize, String)> {
        if slot.len() != SLOT {
            return Err((slot.len(), format!("cut short: {} of {SLOT} bytes", slot.len())));
        }
        const LENGTH: u32 = Question::LENGTH;
        const KIND: u16 = Question::KIND;
        let fault = |at, words: String| Err((at, words));
        match (u32_at(slot, 0), u16_at(slot, 4), u32_at(slot, 6), slot[16], slot[17]) {
            (LENGTH, KIND, 1.., 0 | 1, 0) => Ok(Question::of(slot)),
            (LENGTH, KIND, 1.., 0 | 1, spare) => fault(17, format!("spare is {spare}, not 0")),
            (LENGTH, KIND, 1.., way, _) => fault(16, format!("way is {way}, not 0 or 1")),
            (LENGTH, KIND, ..) => fault(6, "job is 0".into()),
            (LENGTH, kind, ..) => fault(4, format!("kind is {kind}, not {KIND}")),
            (length, ..) => fault(0, format!("length is {length}, not {LENGTH}")),
        }
    }

    fn of(slot: &[u8]) -> Question {
        let number = |i: usize| f64_at(slot, 18 + 8 * i);
        Question {
            job: u32_at(slot, 6),
            revision: u32_at(slot, 10),
            revolutions: u16_at(slot, 14),
            long_way: slot[16] == 1,
            r1: [number(0), number(1), number(2)],
            r2: [number(3), number(4), number(5)],
            mu: number(6),
            time: number(7),
        }
    }

    pub fn way(&self) -> &'static str {
        if self.long_way {
            "long"
        } else {
            "short"
        }
    }
}

/// Reads the slots of an input. The last slot may be short.
pub struct Slots<R> {
    input: R,
    pub number: u64,
}

impl<R: Read> Slots<R> {
    pub fn new(input: R) -> Self {
        Slots { input, number: 0 }
    }

    pub fn next(&mut self) -> io::Result<Option<Vec<u8>>> {
        let mut slot = vec![0; SLOT];
        let had = read_full(&mut self.input, &mut slot)?;
        slot.truncate(had);
        self.number += u64::from(had > 0);
        Ok(Some(slot).filter(|slot| !slot.is_empty()))
    }

    /// Returns the byte at which the slot read last begins.
    pub fn offset(&self) -> u64 {
        (self.number - 1) * SLOT as u64
    }
}

#[cfg(test)]
mod tests {
    use super::*;

    #[test]
    fn a_slot_is_read_back() {
        for slot in include_bytes!("../../../samples/questions").chunks(SLOT) {
            assert_eq!(Question::read(slot).expect("a question").bytes(), slot);
        }
    }

    #[test]
    fn each_fault_has_its_place() {
        let sample = &include_bytes!("../../../samples/questions")[..SLOT];
        for (at, value, words) in [
            (0, 77, "length is 77, not 78"),
            (4, 2, "kind is 2, not 1"),
            (6, 0, "job is 0"),
            (16, 2, "way is 2, not 0 or 1"),
            (17, 9, "spare is 9, not 0"),
        ] {
            let mut slot = sample.to_vec();
            slot[at] = value;
            assert_eq!(Question::read(&slot), Err((at, words.to_string())));
        }
        assert_eq!(Question::read(&sample[..81]), Err((81, "cut short: 81 of 82 bytes".into())));
    }
}
