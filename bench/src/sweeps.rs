//! Whole sweeps, each reduced to one number as the C interface returns it.

use crate::{proved, report, timing};
use reference::random::Random;
use reference::sweep::{crossings, VoidStation, Walk};
use reference::sweeps::{with_void_stations, Case};
use reference::time::{time_at, HIGHEST_TURNING, LOWEST, MOST_TURNS};

/// A lambda, the number of whole revolutions and a wanted time.
pub type Sweep = (f64, u16, f64);

/// Returns a random lambda in (-1, 1) with the time of a random place as the wanted time, or 1 if that place is void.
fn sweep(m: u16, random: &mut Random) -> Sweep {
    let lambda = 2.0 * random.fraction() - 1.0;
    let k = LOWEST + random.below((HIGHEST_TURNING - LOWEST) as u64) as i64;
    (lambda, m, time_at(lambda, k, m).unwrap_or(1.0))
}

pub fn ours((lambda, m, wanted): Sweep) -> u64 {
    proved::sweep_number(lambda.to_bits(), m, wanted.to_bits())
}

pub fn theirs((lambda, m, wanted): Sweep) -> u64 {
    let found = crossings(lambda, m, wanted);
    let walk = match found.walk {
        Walk::Timed => 0,
        Walk::Void(VoidStation { j, reason }) => {
            16 + (u64::from(reason.number()) << 8) + (u64::from(j as u32) << 32)
        }
        Walk::Ninth => 32,
    };
    walk + found.brackets.len() as u64
}

/// Returns the sweeps that are timed, without and with whole revolutions. All their stations have times. For a void station
/// an earlier commit may return another number.
pub fn sorts() -> [(&'static str, Vec<Sweep>); 2] {
    let mut random = Random::new(12);
    let without = (0..8).map(|_| sweep(0, &mut random)).collect();
    let with = (1..=MOST_TURNS).map(|m| sweep(m, &mut random)).collect();
    [("a sweep, M = 0", without), ("a sweep, M from 1 to 16", with)]
}

pub fn time() {
    for (what, sweeps) in sorts() {
        let times = timing::nanoseconds(&sweeps, [&ours, &theirs]);
        report(what, sweeps.len(), times.map(|t| t / 1e6), ("ms", "reference"));
    }
}

/// Compares `count` random sweeps, and the sweeps with void stations of a seed that the test vectors don't have.
pub fn compare(count: u64) -> bool {
    let mut random = Random::new(13);
    let random_sweeps = (0..count).map(|i| sweep((i % 18) as u16, &mut random));
    let void = with_void_stations(29).into_iter().map(sweep_of);
    same_numbers("sweeps", random_sweeps) && same_numbers("sweeps with void stations", void)
}

fn sweep_of(case: Case) -> Sweep {
    (f64::from_bits(case.lambda), case.m, f64::from_bits(case.wanted))
}

fn same_numbers(what: &str, sweeps: impl Iterator<Item = Sweep>) -> bool {
    let mut count = 0;
    for s in sweeps {
        if ours(s) != theirs(s) {
            println!("{s:?}: proved {:016x}, reference {:016x}", ours(s), theirs(s));
            return false;
        }
        count += 1;
    }
    println!("sweep: {count} {what}, every number of crossings and every first void station equal");
    true
}
