//! The little-endian records of a file. Questions are written and read; answers and refusals are only read.

pub mod form;
pub mod frames;
pub mod question;
pub mod record;
pub mod refusal;
pub mod slots;
mod stations;

pub use form::ROOM;
pub use frames::Frames;
pub use question::{Question, Slots, SLOT};
pub use record::{Entry, Outcome, Record, Records};
pub use refusal::{Refusal, VoidStation};

/// Defines a function that reads the number at a position of some bytes. It panics if there are too few bytes.
macro_rules! number_at {
    ($name:ident, $type:ty) => {
        pub fn $name(bytes: &[u8], at: usize) -> $type {
            const SIZE: usize = std::mem::size_of::<$type>();
            let mut part = [0; SIZE];
            part.copy_from_slice(&bytes[at..at + SIZE]);
            <$type>::from_le_bytes(part)
        }
    };
}

number_at!(u16_at, u16);
number_at!(u32_at, u32);
number_at!(u64_at, u64);
number_at!(i32_at, i32);
number_at!(i64_at, i64);
number_at!(f64_at, f64);

/// A fault of a file that is not well-formed.
#[derive(Debug, PartialEq)]
pub struct Fault {
    /// The byte at which the wrong field begins or, if the file is cut short, its end.
    pub offset: u64,
    /// The number of the record or slot, counted from 1.
    pub number: u64,
    pub words: String,
}

impl Fault {
    /// Returns the message for the fault, with the file and the position.
    pub fn located(&self, name: &str, what: &str) -> String {
        let Fault { offset, number, words } = self;
        format!("{name}: byte {offset}, {what} {number}: {words}")
    }
}

/// Reads until the buffer is full or the input ends. Returns the number of bytes read.
pub fn read_full(input: &mut impl std::io::Read, buffer: &mut [u8]) -> std::io::Result<usize> {
    let mut had = 0;
    while had < buffer.len() {
        match input.read(&mut buffer[had..]) {
            Ok(0) => break,
            Ok(n) => had += n,
            Err(e) if e.kind() == std::io::ErrorKind::Interrupted => {}
            Err(e) => return Err(e),
        }
    }
    Ok(had)
}
