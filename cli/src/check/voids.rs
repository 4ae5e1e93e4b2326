//! The first void stations of refusals 12, counted.

use crate::refusal::void_station;
use crate::wire::VoidStation;
use std::collections::BTreeMap;

/// The most different void stations that are listed. The records with others are only counted.
const LISTED: usize = 20;

#[derive(Default)]
pub struct Voids {
    listed: BTreeMap<VoidStation, u64>,
    more: u64,
}

impl Voids {
    /// Counts a record that names this void station.
    pub fn add(&mut self, void: VoidStation) {
        if self.listed.len() < LISTED || self.listed.contains_key(&void) {
            *self.listed.entry(void).or_insert(0) += 1;
        } else {
            self.more += 1;
        }
    }

    /// Returns a line for each void station, in rising x, with the number of records that name it.
    pub fn lines(&self) -> String {
        let line = |(void, count): (&VoidStation, &u64)| {
            format!("  {count} with the first void station {}\n", void_station::words(*void))
        };
        let more = (self.more > 0).then(|| format!("  {} with other first void stations\n", self.more));
        self.listed.iter().map(line).chain(more).collect()
    }
}

#[cfg(test)]
mod tests {
    use super::*;
    use crate::reason::Reason;

    fn lines(stations: impl Iterator<Item = (i32, u16)>) -> Vec<String> {
        let mut voids = Voids::default();
        stations.for_each(|(j, reason)| voids.add(VoidStation { j, reason: Reason(reason) }));
        voids.lines().lines().map(String::from).collect()
    }

    #[test]
    fn equal_stations_are_counted_together() {
        let found = lines([(4, 1), (-4095, 3), (4, 1), (4, 2)].into_iter());
        let expected = [
            "  1 with the first void station j = -4095, x = -0.999755859375, reason 3: a divisor is zero",
            "  2 with the first void station j = 4, x = 0.0009765625, reason 1: lambda, the revolutions or x is out of range",
        ];
        assert_eq!(found[..2], expected);
        assert!(
            found.len() == 3
                && found[2].starts_with("  1 with the first void station j = 4, x = 0.0009765625, reason 2:")
        );
        assert!(lines([].into_iter()).is_empty());
    }

    #[test]
    fn many_stations_are_only_counted() {
        let found = lines((0..100).chain(0..20).map(|j| (j, 1)));
        assert_eq!((found.len(), &found[20][..]), (21, "  80 with other first void stations"));
        assert!(found[19].starts_with("  2 with the first void station j = 19, "));
    }
}
