//! Answers a question: the entrance checks, the crossings, and the velocities at the chosen end of each crossing's bracket.

use crate::entrance::{judge, Problem};
use crate::sweep::{crossings, Bracket, Crossings, VoidStation, Walk};
use crate::time::time_at;
use crate::velocity::Flight;
use crate::wire::Vector;

/// An answer's entry for one crossing: its bracket, whether the upper end is chosen, and v1 and v2 at the chosen end.
#[derive(Clone, Copy, Debug, PartialEq)]
pub struct Entry {
    pub lower: i64,
    pub halvings: u32,
    pub upper_chosen: bool,
    pub velocities: [Vector; 2],
}

/// The number that is given if there is no crossing and a station is void.
pub const VOID_NUMBER: u16 = 12;

/// Why a question isn't answered.
#[derive(Clone, Copy, Debug, PartialEq, Eq)]
pub enum Refusal {
    /// Any number except 12.
    Number(u16),
    /// Number 12, with the first void station's j and the number of its reason.
    Void { j: i32, reason: u16 },
}

impl Refusal {
    pub fn number(self) -> u16 {
        match self {
            Refusal::Number(number) => number,
            Refusal::Void { .. } => VOID_NUMBER,
        }
    }
}

impl From<VoidStation> for Refusal {
    fn from(station: VoidStation) -> Refusal {
        Refusal::Void { j: station.j, reason: station.reason.number() }
    }
}

/// Returns the entries that answer a question's bytes, for an answer buffer of `room` bytes, or the refusal.
pub fn solve(bytes: &[u8], room: usize) -> Result<Vec<Entry>, Refusal> {
    let problem = judge(bytes, room).map_err(Refusal::Number)?;
    let found = crossings(problem.triangle.lambda, problem.revolutions, problem.wanted_time);
    check_crossings(&found)?;
    let entries = found.brackets.iter().map(|b| entry(&problem, b)).collect();
    check_velocities(entries).map_err(Refusal::Number)
}

/// Checks for numbers 11 to 13.
fn check_crossings(found: &Crossings) -> Result<(), Refusal> {
    match (found.walk, found.brackets.is_empty()) {
        (Walk::Timed, true) => Err(Refusal::Number(11)),
        (Walk::Void(station), true) => Err(station.into()),
        (Walk::Ninth, _) => Err(Refusal::Number(13)),
        _ => Ok(()),
    }
}

/// Checks for number 14. If it doesn't apply, returns the entries.
fn check_velocities(entries: Vec<Entry>) -> Result<Vec<Entry>, u16> {
    let mut components = entries.iter().flat_map(|e| e.velocities.concat());
    if components.any(|x| !x.is_finite()) {
        return Err(14);
    }
    Ok(entries)
}

fn entry(p: &Problem, b: &Bracket) -> Entry {
    let upper_chosen = chooses_upper(b, p.wanted_time, |k| time_at(p.triangle.lambda, k, p.revolutions));
    let chosen = if upper_chosen { b.upper } else { b.lower };
    let velocities = Flight::new(p, chosen).velocities();
    Entry { lower: b.lower, halvings: b.halvings, upper_chosen, velocities }
}

/// Reports whether the upper end's time is nearer to the wanted time. On a tie the lower end is chosen.
/// Both ends have times, because a void place never becomes an end of a bracket.
fn chooses_upper(b: &Bracket, wanted: f64, time: impl Fn(i64) -> Option<f64>) -> bool {
    let error = |k: i64| (time(k).expect("a bracket's ends have times") - wanted).abs();
    error(b.upper) < error(b.lower)
}

#[cfg(test)]
mod tests;
