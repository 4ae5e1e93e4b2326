//! Measures how long it takes to write and to read an orbit message with an ordinary state.

use super::{Functions, READ, WRITE};
use crate::{report, timing};
use reference::opm::STATE_SIZE;
use reference::opms::{ReadCall, WriteCall};
use reference::random::Random;
use reference::record::Record;
use reference::solve::Entry;
use std::cell::RefCell;

const COUNT: usize = 256;
/// A size with room for every message.
const ROOM: usize = 800;
const TEXTS: &[u8] =
    b"2026-11-17T00:00:00\nVANATSURK\nTUG 7\n2026-001A\nEARTH\nEME2000\nUTC\n2026-11-18T06:30:00\n";

pub fn time() {
    let mut random = Random::new(18);
    let writing: Vec<WriteCall> = (0..COUNT).map(|_| call(&mut random)).collect();
    let reading: Vec<ReadCall> = writing.iter().map(message).collect();
    measure("writing an orbit message", &writing, WRITE, ROOM);
    measure("reading an orbit message", &reading, READ, STATE_SIZE);
}

fn measure<T>(what: &str, calls: &[T], functions: Functions<T>, room: usize) {
    let lent = RefCell::new(vec![0; room]);
    let [ours, theirs] = functions.map(|function| {
        let lent = &lent;
        move |call: &T| function(call, &mut lent.borrow_mut())
    });
    let operands: Vec<&T> = calls.iter().collect();
    let times = timing::nanoseconds(&operands, [&ours, &theirs]);
    report(what, calls.len(), times, ("ns", "reference"));
}

/// Draws a call with positions in tens of thousands of km and velocities in km/s, for the last of one to
/// three entries.
fn call(random: &mut Random) -> WriteCall {
    let mut vector = |size: f64| [(); 3].map(|()| size * (2.0 * random.fraction() - 1.0));
    let (r1, velocities) = (vector(42_000.0).map(f64::to_bits), [vector(10.0), vector(10.0)]);
    let entries = 1 + random.below(3);
    let entry = Entry { lower: 1, halvings: 20, upper_chosen: true, velocities };
    let outcome = Ok(vec![entry; entries as usize]);
    let answer = Record { job: 7, revision: 2, outcome }.write();
    WriteCall { answer, entry: entries, r1, texts: TEXTS.to_vec(), room: ROOM }
}

/// Returns the call that reads the message of another call.
fn message(call: &WriteCall) -> ReadCall {
    let mut out = [0; ROOM];
    let size = call.write(&mut out).expect("the call is right");
    ReadCall { message: out[..size].to_vec(), room: STATE_SIZE }
}
