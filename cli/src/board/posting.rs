//! Posts the records of inputs, prints a message for each record that the board refuses, and keeps what explains the board.

use super::content::{empty, other_content};
use super::names::Names;
use super::origins::{Origins, Place};
use super::tally::Tally;
use crate::proved::{post, TAKEN};
use crate::stop::{tell, Stop};
use crate::streams::Input;
use crate::wire::slots::SLOTS;
use crate::wire::{form, u32_at, Frames};
use crate::words::printable;
use std::io::BufReader;

/// The numbers of a board's refusals, B0 to B3.
pub const NO_BOARD: u8 = 0;
const MALFORMED: u8 = 1;
pub const NO_JOB: u8 = 2;
pub const NO_SLOT: u8 = 3;

/// The most refusals that are printed for one input. The rest are only counted: a file that does not hold records can have many.
const TOLD: u64 = 20;

pub struct Posting {
    pub board: Vec<u8>,
    pub origins: Origins,
    pub names: Names,
    pub tally: Tally,
}

impl Posting {
    /// Begins with a board. The name is that of the file of a stored board.
    pub fn on(board: Vec<u8>, stored: String) -> Posting {
        let origins = Origins::stored(&board);
        Posting { board, origins, names: Names { stored, inputs: Vec::new() }, tally: Tally::default() }
    }

    /// Posts the records of an input up to its end or the first fault.
    pub fn post_all(&mut self, name: String, input: Result<Input, Stop>) {
        let shown = printable(&name);
        self.names.inputs.push(name);
        let cut = format!("{shown} could not be read to its end");
        let input = match input.and_then(|mut input| Ok((other_content(&mut input)?, input))) {
            Ok((None, input)) => input,
            Ok((Some(words), _)) => {
                let what = words.split(':').next().unwrap_or_default();
                return self.unread(format!("{shown}: {words}"), format!("{shown} {what}"));
            }
            Err(Stop::Said(words)) => return self.unread(words, cut),
            Err(Stop::PipeClosed) => return self.unread(format!("cannot read {shown}"), cut),
        };
        let is_standard_input = input.file.is_none();
        let (mut frames, mut refused) = (Frames::new(BufReader::new(input.bytes)), 0);
        let fault = loop {
            let record = match frames.next() {
                Err(e) => break Some(format!("cannot read {shown}: {e}")),
                Ok(Err(fault)) => break Some(fault.located(&shown, "record")),
                Ok(Ok(None)) => break None,
                Ok(Ok(Some(record))) => record,
            };
            if let Err((at, words)) = self.post(&record, frames.offset) {
                refused += 1;
                if refused <= TOLD {
                    tell(&frames.fault(at, words).located(&shown, "record"));
                }
            }
        };
        if refused > TOLD {
            tell(&format!("{shown}: {} more records are refused", refused - TOLD));
        }
        match fault {
            Some(words) => self.unread(words, cut),
            None if frames.number == 0 => tell(&empty(&shown, is_standard_input)),
            None => {}
        }
    }

    /// Prints why the input was not read to its end, and notes it in a few words.
    fn unread(&mut self, why: String, in_short: String) {
        tell(&why);
        self.tally.unread(in_short);
    }

    /// Posts a record of the input that is read. If the board refuses it, returns the position of the reason in the record, and
    /// the reason in words.
    fn post(&mut self, record: &[u8], byte: u64) -> Result<(), (usize, String)> {
        self.tally.came();
        let number = post(&mut self.board, record);
        if number != TAKEN {
            self.tally.refused(number);
            return Err(why(number, record));
        }
        let place = Place::Input { number: self.names.inputs.len() - 1, byte };
        self.origins.note(&self.board, place, record);
        Ok(())
    }
}

/// Returns the position in a refused record of the field that is the reason, and the reason in words.
fn why(number: u8, record: &[u8]) -> (usize, String) {
    match number {
        MALFORMED => match form::framed(record) {
            Err((at, words)) => (at, format!("B1, malformed: {words}")),
            Ok(()) => (0, "B1, malformed".into()),
        },
        NO_JOB => (6, "B2, job is 0: a board holds the outcomes of numbered jobs".into()),
        NO_SLOT => {
            let job = u32_at(record, 6);
            (0, format!("B3, no free slot for job {job}: the board holds {SLOTS} other jobs"))
        }
        _ => (0, format!("B{number}, the board is damaged")),
    }
}

#[cfg(test)]
pub mod tests;
