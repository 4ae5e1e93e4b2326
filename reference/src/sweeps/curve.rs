//! The times of all stations, and wanted times that are drawn from them.

use super::void_stations::{self, Shape};
use crate::random::Random;
use crate::sweep::{crossings_of, stations, Crossings};
use crate::time::{time, Void};

/// The number of sorts of wanted times.
pub const SORTS: u64 = 14;

/// Special wanted times that no station has.
pub const ODD: [f64; 9] =
    [f64::NAN, -f64::NAN, f64::INFINITY, f64::NEG_INFINITY, -1.0, 0.0, -0.0, f64::MIN_POSITIVE, f64::MAX];

/// The times of all stations for one lambda and M. `known` contains those of the stations that aren't void.
pub struct Curve {
    lambda: f64,
    m: u16,
    times: Vec<Result<f64, Void>>,
    known: Vec<f64>,
}

impl Curve {
    pub fn new(lambda: f64, m: u16) -> Curve {
        let times: Vec<Result<f64, Void>> = stations(m).map(|k| time(lambda, k, m)).collect();
        let known = times.iter().copied().flatten().collect();
        Curve { lambda, m, times, known }
    }

    pub fn crossings(&self, wanted: f64) -> Crossings {
        crossings_of(&self.times, wanted, |k| time(self.lambda, k, self.m))
    }

    /// Returns the shape of the sweep for a wanted time, or None if no station is void.
    pub fn shape(&self, wanted: f64) -> Option<Shape> {
        void_stations::shape(&self.times, wanted)
    }

    /// Draws a wanted time of the given sort: a time between those of two neighbours, the time of a station to the
    /// bit, or a float next to it. The station is a random one, the one with the least time, the first, the last, or
    /// one that is above both neighbours. For the last sort, and if every station is void, it draws one of `ODD`.
    pub fn wanted(&self, sort: u64, r: &mut Random) -> f64 {
        let (Some(&first), Some(&last)) = (self.known.first(), self.known.last()) else {
            return ODD[r.below(ODD.len() as u64) as usize];
        };
        match sort {
            0 | 1 => self.between(r),
            2 => self.any(r),
            3 => self.any(r).next_up(),
            4 => self.any(r).next_down(),
            5 => self.least(),
            6 => self.least().next_up(),
            7 => self.least().next_down(),
            8 => first,
            9 => last,
            10 => [first.next_up(), last.next_up()][r.below(2) as usize],
            11 => [first.next_down(), last.next_down()][r.below(2) as usize],
            12 => self.peak(r),
            _ => ODD[r.below(ODD.len() as u64) as usize],
        }
    }

    /// Draws the time of a station.
    pub fn any(&self, r: &mut Random) -> f64 {
        self.known[r.below(self.known.len() as u64) as usize]
    }

    /// Draws the time of a station below the first void one. If there is none, draws the time of any station.
    pub fn before_void(&self, r: &mut Random) -> f64 {
        let count = self.times.iter().take_while(|time| time.is_ok()).count() as u64;
        if count == 0 {
            return self.any(r);
        }
        self.known[r.below(count) as usize]
    }

    /// Draws the time of a station that is above both neighbours. Rounding causes these peaks; if there is
    /// none, draws the time of any station.
    pub fn peak(&self, r: &mut Random) -> f64 {
        let higher = self.known.windows(3).filter(|t| t[0] < t[1] && t[2] < t[1]);
        let peaks: Vec<f64> = higher.map(|t| t[1]).collect();
        if peaks.is_empty() {
            return self.any(r);
        }
        peaks[r.below(peaks.len() as u64) as usize]
    }

    /// Draws one of the twelve least times. Few stations are below it, and if the times are noisy, each of
    /// these makes two crossings.
    pub fn low(&self, r: &mut Random) -> f64 {
        let mut least = self.known.clone();
        let i = r.below(12.min(least.len() as u64)) as usize;
        *least.select_nth_unstable_by(i, f64::total_cmp).1
    }

    fn between(&self, r: &mut Random) -> f64 {
        let i = r.below(self.known.len().max(2) as u64 - 1) as usize;
        let (s, t) = (self.known[i], self.known[(i + 1).min(self.known.len() - 1)]);
        s + (t - s) * r.fraction()
    }

    fn least(&self) -> f64 {
        self.known.iter().copied().fold(f64::INFINITY, f64::min)
    }
}
