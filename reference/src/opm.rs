//! The orbit parameter message (02, A10; CCSDS 502.0-B) in its key-and-value text: fifteen lines `KEY =
//! value`, each ended by one LF. The first line has the version, eight lines have texts, and the last six
//! have the departure state.

mod decimal;
mod lines;
mod reader;
mod text;
mod writer;

pub use decimal::Decimal;
pub use reader::{read, read_state, state_bytes, STATE_SIZE};
pub use text::LONGEST_TEXT;
pub use writer::write;

pub const VERSION_KEY: &str = "CCSDS_OPM_VERS";
pub const VERSION: &str = "2.0";
pub const TEXT_KEYS: [&str; 8] = [
    "CREATION_DATE",
    "ORIGINATOR",
    "OBJECT_NAME",
    "OBJECT_ID",
    "CENTER_NAME",
    "REF_FRAME",
    "TIME_SYSTEM",
    "EPOCH",
];
pub const NUMBER_KEYS: [&str; 6] = ["X", "Y", "Z", "X_DOT", "Y_DOT", "Z_DOT"];

/// What stands between a key and its value.
pub const BETWEEN: &str = " = ";

/// The number of lines of an orbit message.
pub const LINES: usize = 1 + TEXT_KEYS.len() + NUMBER_KEYS.len();

/// The numbers of the writer's refusals B1 and B5 to B8, in the order of the checks. The reader gives B10. If
/// the bytes are an orbit message, but the buffer is too short for its numbers, it gives the number 8.
pub const BAD_ANSWER: u8 = 1;
pub const BAD_TEXT: u8 = 5;
pub const NO_ENTRY: u8 = 6;
pub const BAD_STATE: u8 = 7;
pub const SHORT_BUFFER: u8 = 8;
pub const NOT_A_MESSAGE: u8 = 10;

#[cfg(test)]
mod tests;
