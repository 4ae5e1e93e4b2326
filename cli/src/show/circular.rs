//! The velocity changes from a circular orbit to a transfer and from the transfer to a circular orbit. The circular orbits pass
//! through the question's positions, in the plane and the direction of the transfer.

use crate::vectors::{cross, dot, size};
use crate::wire::{Entry, Question};

/// The names of both changes in JSON and CSV.
pub const NAMES: [&str; 2] = ["dv1_circular_km_s", "dv2_circular_km_s"];

/// Returns the sizes of both changes: at the departure from r1 and at the arrival at r2.
pub fn changes(question: &Question, entry: &Entry) -> [f64; 2] {
    let Question { r1, r2, mu, .. } = *question;
    [change(mu, r1, entry.v1), change(mu, r2, entry.v2)]
}

/// Returns the size of the difference between a velocity and that of the circular orbit. Its radial part is the whole radial speed,
/// and its transverse part is the transverse speed less √(mu/r).
fn change(mu: f64, position: [f64; 3], v: [f64; 3]) -> f64 {
    let r = size(position);
    let u = position.map(|component| component / r);
    dot(u, v).hypot(size(cross(u, v)) - (mu / r).sqrt())
}

#[cfg(test)]
mod tests {
    use super::*;

    /// Hohmann's transfer from 1 to 3 with mu = 6: a = 2, so v1² = 6·(2/1 − 1/2) = 9 and
    /// v2² = 6·(2/3 − 1/2) = 1. The circular speeds are √6 and √2.
    #[test]
    fn a_transfer_of_hohmann() {
        let (r1, r2) = ([1.0, 0.0, 0.0], [-3.0, 0.0, 0.0]);
        let question =
            Question { job: 1, revision: 1, revolutions: 0, long_way: false, r1, r2, mu: 6.0, time: 1.0 };
        let (v1, v2) = ([0.0, 3.0, 0.0], [0.0, -1.0, 0.0]);
        let entry = Entry { low: 0, halvings: 20, upper_chosen: false, v1, v2 };
        let expected = [3.0 - 6f64.sqrt(), 2f64.sqrt() - 1.0];
        for (found, expected) in changes(&question, &entry).into_iter().zip(expected) {
            assert!((found - expected).abs() < 1e-15, "{found}, not {expected}");
        }
    }

    /// At r = 2 with mu = 8 the circular velocity is transverse and has the size 2. A radial speed of 3 and a transverse speed of 6
    /// differ from it by 3 and 4, so the change is 5.
    #[test]
    fn radial_speed_counts_and_the_sense_does_not() {
        for (position, v) in [
            ([2.0, 0.0, 0.0], [3.0, 6.0, 0.0]),
            ([2.0, 0.0, 0.0], [-3.0, -6.0, 0.0]),
            ([0.0, -2.0, 0.0], [0.0, -3.0, 6.0]),
        ] {
            assert_eq!(change(8.0, position, v), 5.0);
        }
        assert_eq!(change(8.0, [0.0, 0.0, 2.0], [2.0, 0.0, 0.0]), 0.0);
    }
}
