//! What follows from an entry without orbital mathematics: x of an end, the kind of orbit.

use crate::wire::Entry;

/// The place of x = 1: place k has x = k/2^32.
const ONE: i64 = 1 << 32;

/// Returns x = k/2^32. The result is exact for every k from the first station to the last.
pub fn x_of(k: i64) -> f64 {
    k as f64 / ONE as f64
}

/// Returns the kind of orbit at the chosen end: an ellipse below x = 1, a parabola at x = 1, a hyperbola above.
pub fn kind(entry: &Entry) -> &'static str {
    match entry.chosen().cmp(&ONE) {
        std::cmp::Ordering::Less => "ellipse",
        std::cmp::Ordering::Equal => "parabola",
        std::cmp::Ordering::Greater => "hyperbola",
    }
}

pub fn end(entry: &Entry) -> &'static str {
    if entry.upper_chosen {
        "upper"
    } else {
        "lower"
    }
}

#[cfg(test)]
mod tests {
    use super::*;

    fn at(low: i64, upper_chosen: bool) -> Entry {
        Entry { low, halvings: 20, upper_chosen, v1: [0.0; 3], v2: [0.0; 3] }
    }

    #[test]
    fn the_chosen_end_decides_the_kind() {
        assert_eq!(kind(&at(ONE - 1, false)), "ellipse");
        assert_eq!(kind(&at(ONE - 1, true)), "parabola");
        assert_eq!(kind(&at(ONE, false)), "parabola");
        assert_eq!(kind(&at(ONE, true)), "hyperbola");
    }

    #[test]
    fn x_is_exact() {
        assert_eq!((x_of(ONE), x_of(-ONE / 2), x_of(1)), (1.0, -0.5, 2f64.powi(-32)));
    }
}
