//! Orbit messages, written and read by the proved code and by the reference.

mod compare;
mod time;

pub use compare::compare;
pub use time::time;

use crate::proved;
use reference::opms::{ReadCall, WriteCall};

/// The two functions that are compared for a sort of call. Both take the call and the bytes that it lends,
/// and return a number.
type Functions<T> = [fn(&T, &mut [u8]) -> u64; 2];

/// Returns the size of the message, or the number of the refusal, which is below every size.
const WRITE: Functions<WriteCall> = [
    |call, out| proved::opm_write(&call.answer, call.entry, call.r1, &call.texts, out),
    |call, out| call.write(out).map_or_else(u64::from, |size| size as u64),
];

/// Returns 0 or the number of the refusal.
const READ: Functions<ReadCall> = [
    |call, state| proved::opm_read(&call.message, state).into(),
    |call, state| call.read(state).err().unwrap_or(0).into(),
];
