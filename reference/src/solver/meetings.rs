//! Questions whose wanted time equals the time of a place bit for bit, or is the float next to it. In
//! these, mu is half of the cube of s times a power of four, so that T* is the question's time times a
//! power of two, without rounding.

use super::flights::{flight, Kind};
use super::timing::{at, curve, place, problem};
use crate::entrance::{Problem, MOST_REVOLUTIONS};
use crate::questions::shapes::power;
use crate::random::Random;
use crate::time::SPACING;
use crate::wire::Question;

/// T* is the question's time in seconds times 2^-SHIFT, so that no question's time is below one second.
const SHIFT: i32 = 8;

/// Where the wanted time comes from. See `time` for each sort.
#[derive(Clone, Copy, Debug, PartialEq, Eq)]
pub enum Sort {
    Station,
    Least,
    First,
    Last,
    Place,
    Middle,
    Tie,
}

pub const SORTS: [Sort; 7] =
    [Sort::Station, Sort::Least, Sort::First, Sort::Last, Sort::Place, Sort::Middle, Sort::Tie];

/// Returns questions of each sort for every number of revolutions. Except for ties, each is asked with the
/// time itself and with a float next to it.
pub fn questions(r: &mut Random) -> Vec<Question> {
    let mut all = Vec::new();
    for m in 0..=MOST_REVOLUTIONS {
        for (i, sort) in SORTS.into_iter().enumerate() {
            let kind = if i % 2 == 0 { Kind::Earth } else { Kind::Moon };
            let way = (i as u16 + m) as u8 % 2;
            let flown = flight(kind, m, way, r);
            let steps: &[i64] = if sort == Sort::Tie { &[0] } else { &[0, [-1, 1][r.below(2) as usize]] };
            all.extend(steps.iter().filter_map(|&by| meeting(flown, sort, by, r)));
        }
    }
    all
}

/// Returns the flight with a time of a random sort. If that isn't possible, for example because the scaled
/// mu is out of range, uses another flight. If that fails too, returns the question unchanged.
pub fn met(q: Question, r: &mut Random) -> Question {
    let sort = SORTS[r.below(SORTS.len() as u64) as usize];
    let by = r.below(3) as i64 - 1;
    let other = flight(Kind::Earth, q.revolutions, q.way, r);
    meeting(q, sort, by, r).or_else(|| meeting(other, sort, by, r)).unwrap_or(q)
}

/// Returns the flight with the scaled mu and a time of the given sort, moved by `by` floats. Returns None
/// if the flight is refused or doesn't have that time.
fn meeting(q: Question, sort: Sort, by: i64, r: &mut Random) -> Option<Question> {
    let s = problem(&q)?.triangle.semiperimeter;
    let mu = ((s * s) * s) / 2.0 * power(-2 * SHIFT);
    let scaled = Question { mu, ..q };
    let wanted = time(&problem(&scaled)?, sort, r)?;
    let moved = f64::from_bits(wanted.to_bits().wrapping_add_signed(by));
    Some(Question { time: moved * power(SHIFT), ..scaled })
}

/// Returns the time of a random station, the least of all stations' times, the time of the first or the last
/// station, of a random place, of the middle of two stations, or a time halfway between those of two places.
fn time(p: &Problem, sort: Sort, r: &mut Random) -> Option<f64> {
    let times = curve(p);
    let i = r.below(times.len() as u64 - 1) as usize;
    let k = place(p.revolutions, r);
    match sort {
        Sort::Station => times[i],
        Sort::Least => times.iter().copied().flatten().reduce(f64::min),
        Sort::First => times[0],
        Sort::Last => times[times.len() - 1],
        Sort::Place => at(p, k),
        Sort::Middle => at(p, (k & -SPACING) + SPACING / 2),
        Sort::Tie => tie(p, k),
    }
}

/// Returns the float halfway between the times of two neighbouring places. These times are an even number of floats apart.
fn tie(p: &Problem, k: i64) -> Option<f64> {
    let pair = |k: i64| Some([at(p, k)?.to_bits(), at(p, k + 1)?.to_bits()]);
    let even = |[a, b]: &[u64; 2]| a != b && a % 2 == b % 2;
    let [a, b] = (k..k + 64).filter_map(pair).find(even)?;
    Some(f64::from_bits(a.midpoint(b)))
}
