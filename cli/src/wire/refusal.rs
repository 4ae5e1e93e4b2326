//! What a refusal says: its number and, if that is 12, the first void station in rising x.

use super::stations::{FIRST, LAST, STATION};
use super::{i32_at, u16_at};
use crate::reason::Reason;

/// The number of a search that found nothing and has a void station.
pub const INCOMPLETE: u16 = 12;

#[derive(Clone, Copy, Debug, PartialEq)]
pub struct Refusal {
    pub number: u16,
    /// Number 12 has a void station, and no other number has one.
    pub void: Option<VoidStation>,
}

/// A station without a time, and the reason. A record can have any j and any reason.
#[derive(Clone, Copy, Debug, PartialEq, Eq, PartialOrd, Ord)]
pub struct VoidStation {
    pub j: i32,
    pub reason: Reason,
}

impl Refusal {
    /// Reads a well-formed record of kind 3.
    pub fn read(bytes: &[u8]) -> Refusal {
        let number = u16_at(bytes, 14);
        let void = || VoidStation { j: i32_at(bytes, 16), reason: Reason(u16_at(bytes, 20)) };
        Refusal { number, void: (number == INCOMPLETE).then(void) }
    }

    /// Returns a refusal with another number than 12.
    #[cfg(test)]
    pub fn plain(number: u16) -> Refusal {
        Refusal { number, void: None }
    }

    /// Returns refusal 12.
    #[cfg(test)]
    pub fn incomplete(j: i32, reason: u16) -> Refusal {
        Refusal { number: INCOMPLETE, void: Some(VoidStation { j, reason: Reason(reason) }) }
    }
}

impl VoidStation {
    /// Returns the place of the station.
    pub fn k(&self) -> i64 {
        i64::from(self.j) * STATION
    }

    /// Returns x of the station. The result is exact for every j.
    pub fn x(&self) -> f64 {
        f64::from(self.j) / 4096.0
    }

    /// Reports whether a search has a station with this j. With whole revolutions it has fewer of them.
    pub fn is_station(&self) -> bool {
        (FIRST..=LAST).contains(&self.k())
    }
}

#[cfg(test)]
mod tests {
    use super::*;
    use crate::orbit::x_of;

    #[test]
    fn stations_are_those_of_the_widest_grid() {
        let of = |j| VoidStation { j, reason: Reason(1) };
        for (j, is_station) in [(-4096, false), (-4095, true), (0, true), (16_384, true), (16_385, false)] {
            assert_eq!(of(j).is_station(), is_station, "{j}");
            assert_eq!(of(j).x(), x_of(of(j).k()));
        }
        for j in [i32::MIN, i32::MAX] {
            assert!(!of(j).is_station() && of(j).x() == x_of(of(j).k()));
        }
    }
}
