//! Splits an input into records by their lengths alone. It does not check whether a record is well-formed, so it also finds the
//! records after a malformed one.

use super::{read_full, u32_at, Fault, ROOM};
use std::io::{self, Read};

/// The size of the length field. The length does not count these bytes.
const LENGTH: usize = 4;

pub struct Frames<R> {
    input: R,
    /// The byte at which the record read last begins.
    pub offset: u64,
    pub number: u64,
    size: usize,
}

impl<R: Read> Frames<R> {
    pub fn new(input: R) -> Self {
        Frames { input, offset: 0, number: 0, size: 0 }
    }

    /// Returns the bytes of the next record, or `None` at the end of the input. After a fault the rest cannot be split into records.
    pub fn next(&mut self) -> io::Result<Result<Option<Vec<u8>>, Fault>> {
        let mut bytes = vec![0; ROOM];
        let had = read_full(&mut self.input, &mut bytes[..LENGTH])?;
        if had == 0 {
            return Ok(Ok(None));
        }
        self.offset += self.size as u64;
        self.number += 1;
        if had < LENGTH {
            return Ok(Err(self.fault(had, format!("cut short: {had} of the {LENGTH} bytes of a length"))));
        }
        let length = u32_at(&bytes, 0) as usize;
        self.size = LENGTH.saturating_add(length);
        if self.size > ROOM {
            let longest = ROOM - LENGTH;
            let words = format!(
                "length is {length}, but no record is longer than {longest}: nothing after it is read"
            );
            return Ok(Err(self.fault(0, words)));
        }
        let had = LENGTH + read_full(&mut self.input, &mut bytes[LENGTH..self.size])?;
        if had < self.size {
            return Ok(Err(self.fault(had, format!("cut short: {had} of {} bytes", self.size))));
        }
        bytes.truncate(self.size);
        Ok(Ok(Some(bytes)))
    }

    /// Returns a fault at a position of the record read last.
    pub fn fault(&self, at: usize, words: String) -> Fault {
        Fault { offset: self.offset + at as u64, number: self.number, words }
    }
}

#[cfg(test)]
mod tests {
    use super::*;

    fn all(bytes: &[u8]) -> (Vec<(u64, Vec<u8>)>, Option<Fault>) {
        let (mut frames, mut found) = (Frames::new(bytes), Vec::new());
        loop {
            match frames.next().expect("bytes can be read") {
                Ok(Some(record)) => found.push((frames.offset, record)),
                Ok(None) => return (found, None),
                Err(fault) => return (found, Some(fault)),
            }
        }
    }

    #[test]
    fn records_follow_each_other_whatever_they_hold() {
        let bytes = [0, 0, 0, 0, 1, 0, 0, 0, 9, 2, 0, 0, 0, 7, 8];
        let records = [(0, vec![0; 4]), (4, vec![1, 0, 0, 0, 9]), (9, vec![2, 0, 0, 0, 7, 8])];
        assert_eq!(all(&bytes), (records.to_vec(), None));
        assert_eq!(all(&[]), (vec![], None));
        let longest = [&524u32.to_le_bytes()[..], &[5; 524]].concat();
        assert_eq!(all(&longest), (vec![(0, longest.clone())], None));
    }

    #[test]
    fn a_fault_ends_them_with_its_place() {
        for (tail, offset, words) in [
            (&[1][..], 6, "cut short: 1 of the 4 bytes of a length"),
            (&[2, 0, 0, 0, 7], 10, "cut short: 5 of 6 bytes"),
            (&[13, 2, 0, 0], 5, "length is 525, but no record is longer than 524: nothing after it is read"),
            (
                &[255; 9],
                5,
                "length is 4294967295, but no record is longer than 524: nothing after it is read",
            ),
        ] {
            let (found, fault) = all(&[&[1, 0, 0, 0, 9], tail].concat());
            assert_eq!((found.len(), fault), (1, Some(Fault { offset, number: 2, words: words.into() })));
        }
    }
}
