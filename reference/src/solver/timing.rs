//! Times for a flight: times that a place takes, and times that may have no answer.

use crate::entrance::{judge, Problem, ROOM};
use crate::questions::shapes::{between, spread};
use crate::random::Random;
use crate::sweep::stations;
use crate::time::{time_at, HIGHEST, HIGHEST_TURNING, LOWEST, PARABOLA};
use crate::triangle::wanted_time;
use crate::wire::Question;

/// Returns the problem of a flight, whatever its time, or None if it is refused for another reason.
pub fn problem(q: &Question) -> Option<Problem> {
    judge(&Question { time: 1.0, ..*q }.write(), ROOM).ok()
}

/// Returns T* of one second.
pub fn second(p: &Problem) -> f64 {
    wanted_time(p.mu, p.triangle.semiperimeter, 1.0)
}

/// Returns the time of the problem's flight at a place, or None if the place is void.
pub fn at(p: &Problem, k: i64) -> Option<f64> {
    time_at(p.triangle.lambda, k, p.revolutions)
}

/// Returns the times of the problem's stations.
pub fn curve(p: &Problem) -> Vec<Option<f64>> {
    stations(p.revolutions).map(|k| at(p, k)).collect()
}

/// Draws a place, often of an ellipse, sometimes close to an end of the range.
pub fn place(m: u16, r: &mut Random) -> i64 {
    let highest = if m == 0 && r.below(3) == 0 { HIGHEST } else { HIGHEST_TURNING };
    match r.below(8) {
        0 => highest - r.below(PARABOLA as u64 / 64) as i64,
        1 => LOWEST + r.below(PARABOLA as u64 / 64) as i64,
        _ => LOWEST + r.below((highest - LOWEST) as u64 + 1) as i64,
    }
}

/// Sets the time, mostly to that of a place or to a moderate one, else to any from 8 seconds to more than a century.
pub fn anyhow(q: Question, r: &mut Random) -> Question {
    let free = spread(r, 3, 32);
    match r.below(6) {
        0 => Question { time: free, ..q },
        1 | 2 => moderate(q, r),
        _ => {
            let k = place(q.revolutions, r);
            let taken = problem(&q).and_then(|p| Some(at(&p, k)? / second(&p)));
            Question { time: taken.unwrap_or(free), ..q }
        }
    }
}

/// Sets a time that is usual for missions, without regard to the places. T* = π is the period of the
/// smallest ellipse. The time is from M + 0.3 to 2·M + 2 of these periods.
pub fn moderate(q: Question, r: &mut Random) -> Question {
    let whole = f64::from(q.revolutions);
    let periods = between(r, whole + 0.3, 2.0 * whole + 2.0);
    let time = problem(&q).map_or(1.0, |p| periods * std::f64::consts::PI / second(&p));
    Question { time, ..q }
}
