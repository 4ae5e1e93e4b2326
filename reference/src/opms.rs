//! The calls on which writers and readers of orbit messages are compared, any number of them, drawn from a
//! seed.

mod near_misses;
mod numbers;
mod read_calls;
mod texts;
mod write_calls;

pub use read_calls::{near_miss, ReadCall};
pub use write_calls::{faulty_call, right_call, WriteCall};
