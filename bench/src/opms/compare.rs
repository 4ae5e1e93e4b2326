//! Random calls of both writers and both readers. The result and every lent byte must be equal, and some
//! bytes after the lent ones too.

use super::{Functions, READ, WRITE};
use reference::opm::{state_bytes, Decimal, STATE_SIZE};
use reference::opms::{faulty_call, near_miss, right_call, ReadCall, WriteCall};
use reference::random::Random;
use std::fmt::Debug;

/// The number of bytes after the lent ones that a call must leave unchanged.
const BEYOND: usize = 64;

/// The refusals of the writer and of the reader.
const WRITER_REFUSALS: [u64; 5] = [1, 5, 6, 7, 8];
const READER_REFUSALS: [u64; 2] = [10, 8];

/// Compares `right` messages that are written and read back, `faulty` calls of the writer, and `misses` calls
/// of the reader with bytes that are nearly a message.
pub fn compare(right: u64, faulty: u64, misses: u64) -> bool {
    let mut random = Random::new(17);
    compare_right(right, &mut random).is_some_and(|messages| {
        compare_faulty(faulty, &mut random).is_some()
            && compare_misses(&messages, misses, &mut random).is_some()
    })
}

/// Compares calls that the writer takes, and the reader on their messages. Returns the messages.
fn compare_right(count: u64, random: &mut Random) -> Option<Vec<Vec<u8>>> {
    let mut messages = Vec::new();
    for i in 0..count {
        let (call, numbers) = right_call(i, random);
        let (size, out) = same_write(&call, random)?;
        let message = out[..size as usize].to_vec();
        let reading = ReadCall { message: message.clone(), room: STATE_SIZE + random.below(20) as usize };
        let (refusal, state) = same_read(&reading, random)?;
        if refusal != 0 || state[..STATE_SIZE] != rounded(numbers) {
            println!("the message is read as {refusal} and {state:02x?}; {call:02x?}");
            return None;
        }
        messages.push(message);
    }
    println!(
        "orbit message: {count} messages of {} numbers, each read back as it was rounded, every byte equal",
        6 * count
    );
    Some(messages)
}

/// Compares calls of the writer with no fault, one or several.
fn compare_faulty(count: u64, random: &mut Random) -> Option<()> {
    let mut results = Vec::new();
    for _ in 0..count {
        let (call, due) = faulty_call(random);
        let (result, _) = same_write(&call, random)?;
        if due.is_some_and(|number| result != u64::from(number)) {
            println!("the call is not refused as it must be, with {due:?}; {call:02x?}");
            return None;
        }
        results.push(result);
    }
    let refused = WRITER_REFUSALS.map(|number| results.iter().filter(|&&result| result == number).count());
    println!(
        "orbit message: {count} calls to write one, {refused:?} of them refused B1, B5, B6, B7 and B8, \
         every number and every byte equal"
    );
    Some(())
}

/// Compares the readers on bytes that are nearly a message.
fn compare_misses(messages: &[Vec<u8>], count: u64, random: &mut Random) -> Option<()> {
    let mut results = Vec::new();
    for message in messages.iter().cycle().take(count as usize) {
        let (result, _) = same_read(&near_miss(message, random), random)?;
        results.push(result);
    }
    let refused = READER_REFUSALS.map(|number| results.iter().filter(|&&result| result == number).count());
    println!(
        "orbit message: {count} near misses read, {refused:?} of them refused B10 and B8, \
         every number and every byte equal"
    );
    Some(())
}

fn same_write(call: &WriteCall, random: &mut Random) -> Option<(u64, Vec<u8>)> {
    same(WRITE, call, call.room, random)
}

fn same_read(call: &ReadCall, random: &mut Random) -> Option<(u64, Vec<u8>)> {
    same(READ, call, call.room, random)
}

/// Returns the result of both functions and the bytes after the call. Prints the case and returns None if
/// they differ.
fn same<T: Debug>(
    functions: Functions<T>,
    call: &T,
    room: usize,
    random: &mut Random,
) -> Option<(u64, Vec<u8>)> {
    let before: Vec<u8> = (0..room + BEYOND).map(|_| random.bits(8) as u8).collect();
    let [ours, theirs] = functions.map(|function| {
        let mut bytes = before.clone();
        (function(call, &mut bytes[..room]), bytes)
    });
    if ours == theirs {
        return Some(theirs);
    }
    println!("{call:02x?}");
    println!("proved    {:x}, bytes {:02x?}", ours.0, ours.1);
    println!("reference {:x}, bytes {:02x?}", theirs.0, theirs.1);
    None
}

/// Returns the bytes of the numbers as the writer rounds them.
fn rounded(numbers: [f64; 6]) -> Vec<u8> {
    state_bytes(numbers.map(|x| Decimal::nearest(x).expect("the number is in range")))
}
