//! Compares the proved code with the reference, bit for bit, and times both on the same operands.

#[cfg(feature = "before")]
mod before;
mod estimates;
mod operands;
mod opms;
mod posts;
mod proved;
mod questions;
mod roots;
mod sweeps;
mod timing;

use reference::places::{close_to_one, places, Place};
use reference::random::Random;
use reference::time::{self, Void};
use std::iter::repeat_with;
use std::process::ExitCode;

const USAGE: &str = "usage: bench time|compare|questions|before
  time      how long each call of the proved code and of the reference takes, and the ratio: roots (alone, in a
            row, and four at a time), places, sweeps, posts, and orbit messages that are written and read; and the
            share of the estimated roots that the exact test does not accept
  compare   the proved code against the reference: two million random roots; 13 million roots of subnormals, of
            squares, of numbers near squares of middles, of numbers around the ends of ranges, and of numbers
            whose estimate fails; 500,000 calls for four roots; the exact test of two million estimates; one
            million places, 60,000 places with a lambda close to -1 or 1, 500 sweeps, several hundred sweeps with
            void stations, 20,000 posts, 16,000 calls that write an orbit message and 34,000 that read one
  questions how many whole questions a second the proved program and the reference answer, and its memory
  before    the proved code of an earlier commit beside today's, on the same operands (bench/run before COMMIT)";

/// What the C interface returns for a void place is this number plus the number of the reason. It is the bits of a NaN,
/// which no time has.
const VOID: u64 = 0x7FF8_0000_0000_0000;

fn main() -> ExitCode {
    match std::env::args().skip(1).collect::<Vec<_>>().join(" ").as_str() {
        "time" => {
            let root = roots::time();
            estimates::print_shares();
            time_places(root);
            sweeps::time();
            posts::time();
            opms::time();
            ExitCode::SUCCESS
        }
        "compare"
            if roots::compare(2_000_000, 500_000)
                && estimates::check(1_000_000)
                && compare_places(1_000_000, 60_000)
                && sweeps::compare(500)
                && posts::compare(20_000)
                && opms::compare(4_000, 12_000, 30_000) =>
        {
            ExitCode::SUCCESS
        }
        "compare" => ExitCode::FAILURE,
        "questions" => finished(questions::time()),
        #[cfg(feature = "before")]
        "before" => finished(before::time()),
        _ => {
            eprintln!("{USAGE}");
            ExitCode::from(2)
        }
    }
}

fn finished(done: std::io::Result<()>) -> ExitCode {
    match done {
        Ok(()) => ExitCode::SUCCESS,
        Err(e) => {
            eprintln!("bench: {e}");
            ExitCode::FAILURE
        }
    }
}

fn report(what: &str, count: usize, [ours, theirs]: [f64; 2], (unit, other): (&str, &str)) {
    println!("{what}, {count} operands, the best of {} rounds:", timing::ROUNDS);
    println!("  proved     {ours:8.2} {unit}");
    println!("  {other:<10} {theirs:8.2} {unit}");
    println!("  ratio      {:8.1}", ours / theirs);
}

fn reference_time(p: Place) -> Result<f64, Void> {
    time::time(f64::from_bits(p.lambda), p.k, p.m)
}

fn reference_bits(p: Place) -> u64 {
    reference_time(p).map_or_else(|reason| VOID + u64::from(reason.number()), f64::to_bits)
}

/// Returns the places of the test vectors that have a time.
fn timed_places() -> Vec<Place> {
    places().into_iter().filter(|&p| reference_time(p).is_ok()).collect()
}

/// Times the places. The time at a place takes four square roots, one after the other, and a fifth if there are whole
/// revolutions. `root` is the time of one root in a row.
fn time_places(root: f64) {
    let timed = timed_places();
    let roots = timed.iter().map(|p| 4 + u64::from(p.m > 0)).sum::<u64>() as f64 / timed.len() as f64;
    let times =
        timing::nanoseconds(&timed, [&|p: Place| proved::time_bits(p.lambda, p.k, p.m), &reference_bits]);
    report("time at a place", timed.len(), times, ("ns", "reference"));
    println!(
        "  the roots  {:8.0} % of the proved time ({roots:.1} a place, each timed in a row)",
        100.0 * roots * root / times[0]
    );
}

/// Draws a lambda in (-1, 1) and a place over the whole range or a little beyond it.
fn any_place(random: &mut Random) -> Place {
    let lambda = (2.0 * random.fraction() - 1.0).to_bits();
    let k = random.below(22 << 30) as i64 - (5 << 30);
    Place { lambda, k, m: random.below(18) as u16 }
}

/// Compares the times and the reasons at `count` random places, and at `close` places with a lambda close to -1 or 1.
fn compare_places(count: usize, close: usize) -> bool {
    let (mut random, mut other) = (Random::new(11), Random::new(28));
    same_times("places", repeat_with(|| any_place(&mut random)).take(count))
        && same_times("places close to -1 or 1", repeat_with(|| close_to_one(&mut other)).take(close))
}

fn same_times(what: &str, places: impl Iterator<Item = Place>) -> bool {
    let (mut count, mut void) = (0, [0; 4]);
    for p in places {
        let (ours, theirs) = (proved::time_bits(p.lambda, p.k, p.m), reference_bits(p));
        if ours != theirs {
            println!("{p:?}: proved {ours:016x}, reference {theirs:016x}");
            return false;
        }
        count += 1;
        if let Err(reason) = reference_time(p) {
            void[usize::from(reason.number()) - 1] += 1;
        }
    }
    println!("time at a place: {count} {what}, {void:?} of them void for reasons 1 to 4, every bit equal");
    true
}
