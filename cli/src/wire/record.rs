//! Reads answers and refusals one after the other. A record that breaks a rule of the format is a fault.

use super::form::{framed, size_of, ENTRY, HEAD, ROOM};
use super::stations::{FIRST, LAST, STATION};
use super::{f64_at, i64_at, read_full, u16_at, u32_at, Fault, Refusal};
use crate::proved::record_of;
use crate::stop::Stop;
use std::io::{self, Read};

#[derive(Debug, PartialEq)]
pub struct Entry {
    pub low: i64,
    pub halvings: u32,
    pub upper_chosen: bool,
    pub v1: [f64; 3],
    pub v2: [f64; 3],
}

#[derive(Debug, PartialEq)]
pub enum Outcome {
    Answered(Vec<Entry>),
    Refused(Refusal),
}

#[derive(Debug, PartialEq)]
pub struct Record {
    pub job: u32,
    pub revision: u32,
    pub outcome: Outcome,
}

impl Entry {
    /// Returns the bracket's width in k.
    pub fn width(&self) -> i64 {
        STATION >> self.halvings
    }

    /// Returns k of the chosen end.
    pub fn chosen(&self) -> i64 {
        self.low + if self.upper_chosen { self.width() } else { 0 }
    }

    fn read(bytes: &[u8]) -> Result<Entry, (usize, String)> {
        let (low, halvings, chosen) = (i64_at(bytes, 0), u32_at(bytes, 8), u32_at(bytes, 12));
        if halvings > 20 {
            return Err((8, format!("halvings are {halvings}, above 20")));
        }
        if low < FIRST || low > LAST - (STATION >> halvings) {
            return Err((0, format!("lower end k = {low} is outside the stations")));
        }
        let number = |i: usize| f64_at(bytes, 16 + 8 * i);
        match (0..6).find(|&i| !number(i).is_finite()) {
            Some(i) => Err((16 + 8 * i, format!("a velocity component is {}", number(i)))),
            None => Ok(Entry {
                low,
                halvings,
                upper_chosen: chosen == 1,
                v1: [number(0), number(1), number(2)],
                v2: [number(3), number(4), number(5)],
            }),
        }
    }
}

impl Record {
    /// Reads a record that was split off its input by its length. If it breaks a rule of the format or has an entry that the solver
    /// cannot have written, returns the position of the fault and the reason.
    pub fn read(bytes: &[u8]) -> Result<Record, (usize, String)> {
        framed(bytes)?;
        let outcome = if u16_at(bytes, 4) == 3 {
            Outcome::Refused(Refusal::read(bytes))
        } else {
            let entries = bytes[HEAD..].chunks(ENTRY).enumerate().map(|(i, part)| {
                let place = |(at, words)| (HEAD + ENTRY * i + at, format!("entry {}: {words}", i + 1));
                Entry::read(part).map_err(place)
            });
            Outcome::Answered(entries.collect::<Result<_, _>>()?)
        };
        Ok(Record { job: u32_at(bytes, 6), revision: u32_at(bytes, 10), outcome })
    }
}

impl Record {
    /// Returns the solver's record of a question.
    pub fn of_question(slot: &[u8]) -> Result<Record, Stop> {
        match Records::new(&record_of(slot)[..]).next() {
            Ok(Ok(Some(record))) => Ok(record),
            _ => Stop::said("the solver's record cannot be read"),
        }
    }
}

/// Reads the records of an input up to the first fault.
pub struct Records<R> {
    input: R,
    pub offset: u64,
    pub number: u64,
}

impl<R: Read> Records<R> {
    pub fn new(input: R) -> Self {
        Records { input, offset: 0, number: 0 }
    }

    /// Returns the next record, or `None` at the end of the input.
    pub fn next(&mut self) -> io::Result<Result<Option<Record>, Fault>> {
        let mut bytes = [0; ROOM];
        let had = read_full(&mut self.input, &mut bytes[..HEAD])?;
        if had == 0 {
            return Ok(Ok(None));
        }
        self.number += 1;
        if had < HEAD {
            return Ok(Err(self.fault((had, format!("cut short: {had} of the {HEAD} bytes of a head")))));
        }
        let size = match size_of(&bytes[..HEAD]) {
            Ok(size) => size,
            Err(wrong) => return Ok(Err(self.fault(wrong))),
        };
        let had = HEAD + read_full(&mut self.input, &mut bytes[HEAD..size])?;
        if had < size {
            return Ok(Err(self.fault((had, format!("cut short: {had} of {size} bytes")))));
        }
        let read = Record::read(&bytes[..size]).map_err(|wrong| self.fault(wrong));
        self.offset += size as u64;
        Ok(read.map(Some))
    }

    fn fault(&self, (at, words): (usize, String)) -> Fault {
        Fault { offset: self.offset + at as u64, number: self.number, words }
    }
}

#[cfg(test)]
mod tests;
