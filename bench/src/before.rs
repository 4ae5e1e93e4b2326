//! Times the proved code of an earlier commit, that of today, and the hardware or the reference, in one run on the same operands.

use crate::questions::{self, COUNT, PROVED, REFERENCE, SORTS};
use crate::roots::{hardware, hardware_four, ordinary, ordinary_fours, positive, proved_four};
use crate::sweeps::{self, Sweep};
use crate::{proved, reference_bits, timed_places, timing};
use reference::places::Place;
use std::io;
use std::path::Path;

/// The environment variable in which bench/run gives the path of the earlier commit's program.
const LAMBERT: &str = "LAMBERT_BEFORE";

extern "C" {
    fn before_root_bits(b: u64) -> u64;
    fn before_time_bits(b: u64, k: i64, m: u16) -> u64;
    fn before_sweep_number(b: u64, m: u16, w: u64) -> u64;
}

fn root(b: u64) -> u64 {
    // SAFETY: the function takes and returns a number and has no precondition.
    unsafe { before_root_bits(b) }
}

/// Takes the roots of four numbers one after the other. Most earlier commits have no function for all four.
fn four(numbers: [f64; 4]) -> u64 {
    numbers.iter().fold(0, |sum, x| sum.wrapping_add(root(x.to_bits())))
}

fn place(p: Place) -> u64 {
    // SAFETY: the function takes and returns numbers and has no precondition.
    unsafe { before_time_bits(p.lambda, p.k, p.m) }
}

fn sweep((lambda, m, wanted): Sweep) -> u64 {
    // SAFETY: the function takes and returns numbers and has no precondition.
    unsafe { before_sweep_number(lambda.to_bits(), m, wanted.to_bits()) }
}

pub fn time() -> io::Result<()> {
    time_roots();
    let now = |p: Place| proved::time_bits(p.lambda, p.k, p.m);
    measure("time at a place", ("ns", "reference"), &timed_places(), [&place, &now, &reference_bits]);
    for (what, operands) in sweeps::sorts() {
        measure(what, ("ms", "reference"), &operands, [&sweep, &sweeps::ours, &sweeps::theirs]);
    }
    SORTS.into_iter().try_for_each(time_questions)
}

/// Times the root alone, in a row and four at a time. The time for four roots is divided by four.
fn time_roots() {
    let shown = ("ns", "hardware");
    let one: Functions<u64> = [&root, &proved::root_bits, &hardware];
    let (ordinary, fours) = (ordinary(), ordinary_fours());
    measure("square root", shown, &ordinary, one);
    measure("square root, operands of the test vectors", shown, &positive(), one);
    introduce("square root, in a row", &ordinary, one);
    show(shown, timing::nanoseconds_in_a_row(&ordinary, one));
    let all: Functions<[f64; 4]> = [&four, &proved_four, &hardware_four];
    introduce("square root, four at a time, the time of one", &fours, all);
    show(shown, timing::nanoseconds(&fours, all).map(|t| t / 4.0));
}

fn time_questions((sort, what): (&str, &str)) -> io::Result<()> {
    let folder = Path::new("target/questions");
    let before = std::env::var(LAMBERT).map_err(|e| io::Error::other(format!("{LAMBERT}: {e}")))?;
    let programs: [questions::Program; 3] = [(&before, &[]), (PROVED, &[]), (REFERENCE, &["solve"])];
    let seconds = questions::seconds(&questions::ask(sort, folder)?, &programs, folder)?;
    let records = if questions::same(folder, 0, 1)? { "every record equal" } else { "some records differ" };
    println!("questions {what}, {COUNT} of them, {records}, the best of {} rounds:", questions::ROUNDS);
    show(("ms", "reference"), seconds.map(|s| 1e3 * s / COUNT as f64));
    Ok(())
}

/// The unit, ns or ms, and the name of the third function.
type Shown = (&'static str, &'static str);

/// The function of the earlier commit, that of today, and the one that both are compared with.
type Functions<'a, T> = [&'a dyn Fn(T) -> u64; 3];

fn measure<T: Copy>(what: &str, shown: Shown, operands: &[T], functions: Functions<T>) {
    introduce(what, operands, functions);
    let scale = if shown.0 == "ms" { 1e6 } else { 1.0 };
    show(shown, timing::nanoseconds(operands, functions).map(|t| t / scale));
}

/// Prints what is measured, and for how many operands the results of today differ from the earlier ones.
fn introduce<T: Copy>(what: &str, operands: &[T], functions: Functions<T>) {
    let differ = operands.iter().filter(|&&x| functions[0](x) != functions[1](x)).count();
    println!(
        "{what}, {} operands, of which {differ} have another result, the best of {} rounds:",
        operands.len(),
        timing::ROUNDS
    );
}

fn show((unit, third): Shown, [before, now, other]: [f64; 3]) {
    println!("  before     {before:8.2} {unit}, {:.2} times today's", before / now);
    println!("  today      {now:8.2} {unit}");
    println!("  {third:<10} {other:8.2} {unit}, today's is {:.1} times that", now / other);
}
