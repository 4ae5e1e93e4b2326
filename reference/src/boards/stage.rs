//! The state of the compared program: the bytes of a board and of one more slot, and how many of them are lent as the board.

use super::steps::Step;
use crate::board::{post, SIZE, SLOT};
use crate::hash::hash;

pub const ROOM: usize = SIZE + SLOT;

#[derive(Clone, Debug)]
pub struct Stage {
    pub state: Vec<u8>,
    size: usize,
}

impl Stage {
    pub fn new() -> Stage {
        Stage { state: vec![0; ROOM], size: SIZE }
    }

    /// Performs a step and returns its report. For a record this is T if the board takes it, else the digit
    /// of its refusal. At the end of a list it is the hash of the lent bytes, and the state then starts
    /// again. For other steps it is empty.
    pub fn play(&mut self, step: &Step) -> String {
        match *step {
            Step::Post(ref record) => match post(&mut self.state[..self.size], record) {
                Ok(()) => "T".into(),
                Err(refusal) => refusal.to_string(),
            },
            Step::Set(place, value) => {
                self.state[place as usize] = value;
                String::new()
            }
            Step::Lend(size) => {
                self.size = ROOM.min(size as usize);
                String::new()
            }
            Step::End => {
                let told = format!(" {:016x}\n", hash(&self.state[..self.size]));
                *self = Stage::new();
                told
            }
        }
    }
}
