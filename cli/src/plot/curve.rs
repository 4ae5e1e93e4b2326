//! What the proved library computes for a question: the wanted time, and the times at its stations and chosen ends.

use crate::orbit::x_of;
use crate::proved;
use crate::reason::Reason;
use crate::wire::Outcome;
use std::collections::BTreeMap;

/// A place: x, and the time or, if the place is void, the reason.
pub type Place = (f64, Result<f64, Reason>);

pub struct Curve {
    pub wanted: f64,
    pub stations: Vec<Place>,
    /// The chosen end of each entry.
    pub chosen: Vec<Place>,
}

impl Curve {
    /// Returns the curve of a question, or `None` if the question does not pass the entrance checks.
    pub fn of(question: &[u8], outcome: &Outcome) -> Option<Curve> {
        let place = |k: i64| (x_of(k), proved::time_or_reason(question, k));
        let chosen = match outcome {
            Outcome::Refused(_) => Vec::new(),
            Outcome::Answered(entries) => entries.iter().map(|entry| place(entry.chosen())).collect(),
        };
        let stations = proved::stations(question).into_iter().map(place).collect();
        Some(Curve { wanted: proved::known(proved::wanted(question))?, stations, chosen })
    }

    /// Returns the number of void stations for each reason.
    pub fn voids(&self) -> BTreeMap<Reason, usize> {
        let mut counts = BTreeMap::new();
        let reasons = self.stations.iter().filter_map(|(_, time)| time.err());
        reasons.for_each(|reason| *counts.entry(reason).or_insert(0) += 1);
        counts
    }
}

#[cfg(test)]
mod tests {
    use super::*;
    use crate::wire::{Record, Refusal, SLOT};

    #[test]
    fn the_curve_crosses_where_the_record_says() {
        for slot in include_bytes!("../../../samples/questions").chunks(SLOT).take(5) {
            let outcome = Record::of_question(slot).ok().expect("a record").outcome;
            let curve = Curve::of(slot, &outcome).expect("past the entrance");
            let below = |place: &Place| place.1.map(|time| time < curve.wanted);
            let crosses = |pair: &&[Place]| below(&pair[0]).is_ok() && below(&pair[0]) != below(&pair[1]);
            let crossings: Vec<&[Place]> = curve.stations.windows(2).filter(crosses).collect();
            assert!(crossings.len() == curve.chosen.len() && curve.voids().is_empty());
            for (pair, (x, time)) in crossings.iter().zip(&curve.chosen) {
                assert!(pair[0].0 <= *x && *x <= pair[1].0);
                assert!((time.expect("a time") / curve.wanted - 1.0).abs() < 1e-6);
            }
        }
    }

    #[test]
    fn a_refusal_at_the_entrance_has_no_curve() {
        let samples = include_bytes!("../../../samples/questions");
        for slot in [&samples[5 * SLOT..], &samples[..81], &[]] {
            assert!(Curve::of(slot, &Outcome::Refused(Refusal::plain(1))).is_none());
        }
    }
}
