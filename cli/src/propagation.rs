//! Where two-body motion leads from r1 and v1 after the asked time, by universal variables. This is for display: it is tested, not
//! proved.

mod universal;

use crate::vectors::{dot, size};
use crate::wire::{Entry, Question};
use universal::universal;

/// The number of steps of a search.
const STEPS: usize = 100;
/// The time that a search may leave, as a part of the whole time.
const LEFT: f64 = 1e-12;

/// Returns the distance in km between r2 and the position that r1 and v1 lead to after the asked time.
pub fn miss(question: &Question, entry: &Entry) -> Option<f64> {
    let Question { r1, r2, mu, time, .. } = *question;
    let end = position_after(mu, r1, entry.v1, time)?;
    Some(size(std::array::from_fn(|i| end[i] - r2[i])))
}

/// Returns the position a time after the position `r` and the velocity `v`, in km, or `None` if a number is not finite or the search
/// does not converge.
pub fn position_after(mu: f64, r: [f64; 3], v: [f64; 3], time: f64) -> Option<[f64; 3]> {
    let alpha = radius_over_axis(mu, r, v);
    // Lengths are divided by |r|, and speeds by the speed of the circular orbit there. Then mu is 1 and the first radius is 1.
    let radius = size(r);
    let circular = (mu / radius).sqrt();
    let [r, v] = [(r, radius), (v, circular)].map(|(a, unit)| a.map(|component| component / unit));
    let orbit = Orbit { sigma: dot(r, v), alpha };
    let chi = orbit.chi_after(time * circular / radius)?;
    let [_, u1, u2, _] = universal(orbit.alpha, chi);
    let (f, g) = (1.0 - u2, u1 + orbit.sigma * u2);
    let end = std::array::from_fn(|i| radius * (f * r[i] + g * v[i]));
    end.iter().all(|component| component.is_finite()).then_some(end)
}

/// A motion that begins at the radius 1 with mu = 1: r·v at the start, and alpha, which is 1 divided by the semimajor axis.
struct Orbit {
    sigma: f64,
    alpha: f64,
}

impl Orbit {
    /// Returns the time that the motion takes up to chi, and the radius there. The radius is the derivative of the time by chi, so
    /// the time grows with chi.
    fn at(&self, chi: f64) -> (f64, f64) {
        let [u0, u1, u2, u3] = universal(self.alpha, chi);
        (u1 + self.sigma * u2 + u3, u0 + self.sigma * u1 + u2)
    }

    /// Returns the chi that the motion reaches after a time. A step is one of Newton if that stays between the bounds and is at most
    /// half as long as the step before. Otherwise it goes to the middle of the bounds. When only rounding is left, the last chi need
    /// not be the best, so the best is kept.
    fn chi_after(&self, time: f64) -> Option<f64> {
        let (mut low, mut high) = (0.0, self.bound(time)?);
        let (mut best, mut least) = (0.0, f64::INFINITY);
        let (mut chi, mut step) = (0.5 * high, 2.0 * high);
        for _ in 0..STEPS {
            let (reached, radius) = self.at(chi);
            let error = reached - time;
            if error.abs() < least {
                (best, least) = (chi, error.abs());
            }
            // Far out on a hyperbola the time is infinite or not a number. Both are too long.
            *(if error < 0.0 { &mut low } else { &mut high }) = chi;
            let newton = chi - error / radius;
            let shorter = (newton - chi).abs() <= 0.5 * step;
            let next = if shorter && low <= newton && newton <= high { newton } else { 0.5 * (low + high) };
            if next == chi {
                break;
            }
            (step, chi) = ((next - chi).abs(), next);
        }
        (least <= LEFT * time).then_some(best)
    }

    /// Returns a chi that the motion has not reached after a time.
    fn bound(&self, time: f64) -> Option<f64> {
        let doubled = std::iter::successors(Some(1.0), |chi| Some(2.0 * chi));
        doubled.take(STEPS).find(|chi| {
            let (reached, _) = self.at(*chi);
            reached >= time || reached.is_nan()
        })
    }
}

/// Returns |r| divided by the semimajor axis: 2 − |r|·v²/mu. The product is computed with twice the digits, because on a long ellipse
/// the difference is small, and the flight time and the apogee depend on it.
pub fn radius_over_axis(mu: f64, r: [f64; 3], v: [f64; 3]) -> f64 {
    let (radius_square, radius_rest) = square(r);
    let (speed_square, speed_rest) = square(v);
    let radius = radius_square.sqrt();
    let rest = (radius_rest - radius.mul_add(radius, -radius_square)) / (2.0 * radius);
    let product = radius * speed_square;
    let product_rest = radius.mul_add(speed_square, -product) + radius * speed_rest + rest * speed_square;
    ((2.0 * mu - product) - product_rest) / mu
}

/// Returns the square of a vector as a sum of an f64 and a small rest.
fn square([x, y, z]: [f64; 3]) -> (f64, f64) {
    [y, z].into_iter().fold((x * x, x.mul_add(x, -(x * x))), |(sum, rest), component| {
        let square = component * component;
        let total = sum + square;
        let added = total - sum;
        let lost = (sum - (total - added)) + (square - added);
        (total, rest + lost + component.mul_add(component, -square))
    })
}

#[cfg(test)]
mod tests;
