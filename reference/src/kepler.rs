//! Two-body motion by Kepler's equation in universal variables, for every conic and any number of
//! revolutions. It doesn't use the solver's rules, so it shows independently where a flight really ends.

use crate::triangle::square;
use crate::wire::Vector;

/// If the size of alpha·chi² is below this limit, the universal functions are computed from their series.
const SERIES: f64 = 1.0;
/// A limit on the iterations. Newton's steps and halvings together never need this many.
const STEPS: u32 = 2000;

#[derive(Clone, Copy, Debug, PartialEq)]
pub struct State {
    pub position: Vector,
    pub velocity: Vector,
}

/// The constants of the motion: the radius at the start, sigma = r·v/√mu at the start, and alpha = 1/a.
struct Orbit {
    radius: f64,
    sigma: f64,
    alpha: f64,
}

/// Returns the state after a time, which may be negative.
pub fn propagate(start: State, mu: f64, time: f64) -> State {
    if time < 0.0 {
        return reversed(propagate(reversed(start), mu, -time));
    }
    let radius = square(start.position).sqrt();
    let sigma = dot(start.position, start.velocity) / mu.sqrt();
    let alpha = 2.0 / radius - square(start.velocity) / mu;
    let orbit = Orbit { radius, sigma, alpha };
    let chi = orbit.chi(mu.sqrt() * time);
    let [_, u1, u2, _] = universal(alpha, chi);
    let end = orbit.radius_at(chi);
    let (f, g) = (1.0 - u2 / radius, (radius * u1 + sigma * u2) / mu.sqrt());
    let (f_rate, g_rate) = (-mu.sqrt() * u1 / (end * radius), 1.0 - u2 / end);
    let sum = |a: f64, b: f64| std::array::from_fn(|i| a * start.position[i] + b * start.velocity[i]);
    State { position: sum(f, g), velocity: sum(f_rate, g_rate) }
}

fn reversed(s: State) -> State {
    State { velocity: s.velocity.map(|x| -x), ..s }
}

pub fn dot(a: Vector, b: Vector) -> f64 {
    a[0] * b[0] + a[1] * b[1] + a[2] * b[2]
}

impl Orbit {
    /// Returns √mu times the flight time at chi. It grows with chi, because its derivative is the radius.
    fn time_at(&self, chi: f64) -> f64 {
        let [_, u1, u2, u3] = universal(self.alpha, chi);
        self.radius * u1 + self.sigma * u2 + u3
    }

    fn radius_at(&self, chi: f64) -> f64 {
        let [u0, u1, u2, _] = universal(self.alpha, chi);
        self.radius * u0 + self.sigma * u1 + u2
    }

    /// Returns the chi at which √mu times the flight time is `wanted`, which is at least 0. Each iteration
    /// is a Newton step, or a halving of the bracket if Newton's step would leave it.
    fn chi(&self, wanted: f64) -> f64 {
        let (mut low, mut high) = (0.0, self.beyond(wanted));
        let mut chi = 0.5 * high;
        for _ in 0..STEPS {
            let error = self.time_at(chi) - wanted;
            // A time that overflows, or that is a NaN because two infinities cancel, counts as too long.
            *(if error < 0.0 { &mut low } else { &mut high }) = chi;
            let newton = chi - error / self.radius_at(chi);
            let inside = low < newton && newton < high;
            let next = if inside { newton } else { 0.5 * (low + high) };
            if next == chi || next == low || next == high {
                return next;
            }
            chi = next;
        }
        chi
    }

    /// Returns a chi at which √mu times the flight time isn't below `wanted`.
    fn beyond(&self, wanted: f64) -> f64 {
        let mut chi = self.radius.sqrt();
        while self.time_at(chi) < wanted {
            chi *= 2.0;
        }
        chi
    }
}

/// Returns the universal functions U0 to U3 of chi.
fn universal(alpha: f64, chi: f64) -> [f64; 4] {
    let z = alpha * chi * chi;
    if z.abs() < SERIES {
        let (c2, c3) = (stumpff(z, 2), stumpff(z, 3));
        return [1.0 - z * c2, chi * (1.0 - z * c3), chi * chi * c2, chi * chi * chi * c3];
    }
    let w = alpha.abs().sqrt();
    let (sine, cosine, half) = if alpha > 0.0 {
        ((w * chi).sin(), (w * chi).cos(), (0.5 * w * chi).sin())
    } else {
        ((w * chi).sinh(), (w * chi).cosh(), (0.5 * w * chi).sinh())
    };
    let u1 = sine / w;
    [cosine, u1, 2.0 * half * half / alpha.abs(), (chi - u1) / alpha]
}

/// Returns the Stumpff function 1/n! − z/(n + 2)! + z²/(n + 4)! − …, for z of size up to 1.
fn stumpff(z: f64, n: u32) -> f64 {
    let factorial: f64 = (1..=n).map(f64::from).product();
    let quotient = |i: u32| -z / f64::from((n + 2 * i + 1) * (n + 2 * i + 2));
    (0..10).rev().fold(1.0, |sum, i| 1.0 + quotient(i) * sum) / factorial
}

#[cfg(test)]
mod tests;
