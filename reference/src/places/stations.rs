//! All stations of some lambdas, as a sweep visits them.

use super::Place;
use crate::time::{HIGHEST, HIGHEST_TURNING, LOWEST, SPACING};

/// Returns the stations of one lambda for each way, and of the least lambda that the entrance accepts (long
/// way, c/s = 2^-10), each with one or two numbers of whole revolutions.
pub fn places() -> Vec<Place> {
    let shortest_chord = -(1.0 - 1.0 / 1024.0f64).sqrt();
    let sweeps = [(0.613, 0), (0.613, 1), (shortest_chord, 0), (shortest_chord, 2), (-0.287, 3)];
    sweeps.iter().flat_map(|&(lambda, m)| sweep(lambda, m)).collect()
}

fn sweep(lambda: f64, m: u16) -> impl Iterator<Item = Place> {
    let highest = if m == 0 { HIGHEST } else { HIGHEST_TURNING };
    (LOWEST / SPACING..=highest / SPACING).map(move |j| Place::new(lambda, j * SPACING, m))
}

#[cfg(test)]
mod tests {
    use super::*;

    #[test]
    fn the_document_s_numbers_of_stations() {
        assert_eq!(sweep(0.0, 0).count(), 20_480);
        assert_eq!(sweep(0.0, 1).count(), 8_191);
        assert_eq!(sweep(0.0, 1).last(), Some(Place::new(0.0, 4_095 << 20, 1)));
    }
}
