//! The sweep over the stations (01, Stations, sides, crossings): sides, crossings, and the bisection of
//! each crossing's pair.

use crate::time::{time, Void, HIGHEST, HIGHEST_TURNING, LOWEST, SPACING};

/// The largest number of crossings that are listed.
pub const PLACES: usize = 8;

/// The interval where the bisection of a crossing's pair stops, and the number of halvings.
#[derive(Clone, Copy, Debug, PartialEq, Eq)]
pub struct Bracket {
    pub lower: i64,
    pub upper: i64,
    pub halvings: u32,
}

/// A void station: its j, where k = j·2^20, and why it is void.
#[derive(Clone, Copy, Debug, PartialEq, Eq)]
pub struct VoidStation {
    pub j: i32,
    pub reason: Void,
}

/// What a sweep finds about the stations: all have times, the first void one in rising x, or a ninth
/// crossing. If there is a ninth crossing, void stations don't matter.
#[derive(Clone, Copy, Debug, PartialEq, Eq)]
pub enum Walk {
    Timed,
    Void(VoidStation),
    Ninth,
}

/// The brackets of the first eight crossings, lowest first, and what the sweep finds about the stations.
#[derive(Clone, Debug, PartialEq, Eq)]
pub struct Crossings {
    pub brackets: Vec<Bracket>,
    pub walk: Walk,
}

impl Crossings {
    /// Returns the number of brackets and the walk as a word. After `void` come the station's j as eight hexadecimal
    /// digits in two's complement and the number of its reason. Then follow, for each bracket, both ends as sixteen
    /// such digits, and its halvings.
    pub fn line(&self) -> String {
        let walk = match self.walk {
            Walk::Timed => "timed".into(),
            Walk::Void(VoidStation { j, reason }) => format!("void {j:08x} {}", reason.number()),
            Walk::Ninth => "ninth".into(),
        };
        let bracket = |b: &Bracket| format!(" {:016x} {:016x} {}", b.lower, b.upper, b.halvings);
        let list: String = self.brackets.iter().map(bracket).collect();
        format!("{} {walk}{list}", self.brackets.len())
    }
}

/// Returns the stations in rising order.
pub fn stations(m: u16) -> impl Iterator<Item = i64> {
    let highest = if m == 0 { HIGHEST } else { HIGHEST_TURNING };
    (LOWEST..=highest).step_by(SPACING as usize)
}

/// Returns the crossings of a wanted time, for any lambda, M and wanted time.
pub fn crossings(lambda: f64, m: u16, wanted: f64) -> Crossings {
    let time = |k: i64| time(lambda, k, m);
    let times: Vec<Result<f64, Void>> = stations(m).map(time).collect();
    crossings_of(&times, wanted, time)
}

/// Returns the crossings, given the times of the stations and a function for the time at any place.
pub fn crossings_of(
    times: &[Result<f64, Void>],
    wanted: f64,
    time: impl Fn(i64) -> Result<f64, Void>,
) -> Crossings {
    let found: Vec<usize> = changes(times, wanted).take(PLACES + 1).collect();
    let walk = match first_void(times) {
        _ if found.len() > PLACES => Walk::Ninth,
        Some(station) => Walk::Void(station),
        None => Walk::Timed,
    };
    let side = |k: i64| time(k).ok().map(|t| below(t, wanted));
    let bracket = |&i: &usize| {
        let lower = LOWEST + i as i64 * SPACING;
        let rising = times[i].is_ok_and(|t| below(t, wanted));
        halve(Bracket { lower, upper: lower + SPACING, halvings: 0 }, rising, &side)
    };
    Crossings { brackets: found.iter().take(PLACES).map(bracket).collect(), walk }
}

/// Returns the first void station.
fn first_void(times: &[Result<f64, Void>]) -> Option<VoidStation> {
    let rising = (LOWEST / SPACING..).zip(times);
    rising.filter_map(|(j, time)| Some(VoidStation { j: j as i32, reason: time.err()? })).next()
}

/// Returns the index of the lower station of each crossing, in rising order.
pub fn changes(times: &[Result<f64, Void>], wanted: f64) -> impl Iterator<Item = usize> + '_ {
    let crossing = move |(i, pair): (usize, &[Result<f64, Void>])| match *pair {
        [Ok(s), Ok(t)] if below(s, wanted) != below(t, wanted) => Some(i),
        _ => None,
    };
    times.windows(2).enumerate().filter_map(crossing)
}

/// Reports whether a time is below the wanted time. An equal time isn't below it.
fn below(time: f64, wanted: f64) -> bool {
    time < wanted
}

/// Halves a bracket until its width is 1 or its middle is void. `rising` says whether the lower end is
/// below; the upper end is on the other side. The middle replaces the end on its own side.
fn halve(b: Bracket, rising: bool, side: &impl Fn(i64) -> Option<bool>) -> Bracket {
    let middle = (b.lower + b.upper) / 2;
    if b.upper - b.lower == 1 || middle == b.lower || middle == b.upper {
        return b;
    }
    let Some(is_below) = side(middle) else {
        return b;
    };
    let (lower, upper) = if is_below == rising { (middle, b.upper) } else { (b.lower, middle) };
    halve(Bracket { lower, upper, halvings: b.halvings + 1 }, rising, side)
}

#[cfg(test)]
mod tests;
