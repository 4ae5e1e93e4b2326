//! The time of flight in a unit that suits the question. The wanted time T* is the question's time, so every T is a time of flight.

/// The units and the least time of a question, in seconds, for which they are used.
const UNITS: [(&str, f64, f64); 4] = [
    ("days", 86_400.0, 172_800.0),
    ("hours", 3_600.0, 7_200.0),
    ("minutes", 60.0, 120.0),
    ("seconds", 1.0, 0.0),
];

pub struct TimeScale {
    pub unit: &'static str,
    /// What is added to the common logarithm of T to get that of the time of flight.
    pub shift: f64,
}

impl TimeScale {
    /// Returns the scale for a question with this time in seconds and this wanted time.
    pub fn of(seconds: f64, wanted: f64) -> TimeScale {
        let suits = |(_, _, least): &&(&str, f64, f64)| seconds >= *least;
        let (unit, size, _) = UNITS.iter().find(suits).unwrap_or(&UNITS[3]);
        TimeScale { unit, shift: (seconds / size).log10() - wanted.log10() }
    }
}

#[cfg(test)]
mod tests {
    use super::*;

    #[test]
    fn the_wanted_time_is_the_question_s() {
        for (seconds, unit, count) in [
            (1.5, "seconds", 1.5),
            (1_800.0, "minutes", 30.0),
            (21_600.0, "hours", 6.0),
            (302_400.0, "days", 3.5),
        ] {
            for wanted in [1e-18, 0.3, 14.0, 1e20] {
                let scale = TimeScale::of(seconds, wanted);
                assert_eq!(scale.unit, unit);
                assert!((10f64.powf(wanted.log10() + scale.shift) / count - 1.0).abs() < 1e-12);
            }
        }
    }
}
