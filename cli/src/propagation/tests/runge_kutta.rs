//! A plain integration of r'' = −mu·r/|r|³ by a Runge-Kutta method of order 6, to compare with. It shares nothing with `propagation`
//! and `arc` but the size of a vector.

use crate::vectors::size;
use crate::wire::{Entry, Question};

/// The method of Butcher with seven stages: the parts of the earlier rates with which each stage after the first begins, and the parts
/// of all rates in the step.
const STAGES: [&[f64]; 6] = [
    &[1.0 / 3.0],
    &[0.0, 2.0 / 3.0],
    &[1.0 / 12.0, 1.0 / 3.0, -1.0 / 12.0],
    &[-1.0 / 16.0, 9.0 / 8.0, -3.0 / 16.0, -3.0 / 8.0],
    &[0.0, 9.0 / 8.0, -3.0 / 8.0, -3.0 / 4.0, 1.0 / 2.0],
    &[9.0 / 44.0, -9.0 / 11.0, 63.0 / 44.0, 18.0 / 11.0, 0.0, -16.0 / 11.0],
];
const WHOLE: [f64; 7] = [11.0 / 120.0, 0.0, 27.0 / 40.0, 27.0 / 40.0, -4.0 / 15.0, -4.0 / 15.0, 11.0 / 120.0];

/// A position and a velocity.
type State = [[f64; 3]; 2];

pub struct Flown {
    pub end: [f64; 3],
    pub lowest: f64,
    pub highest: f64,
}

/// Flies from r1 with v1 through the asked time. A step is `part` of √(|r|³/mu), so every revolution has about 2π/`part` steps.
pub fn fly(question: &Question, entry: &Entry, part: f64) -> Flown {
    let (mu, mut left) = (question.mu, question.time);
    let mut state = [question.r1, entry.v1];
    let radius = size(question.r1);
    let (mut lowest, mut highest) = (radius, radius);
    while left > 0.0 {
        let radius = size(state[0]);
        let step = left.min(part * radius * (radius / mu).sqrt());
        let next = stepped(mu, state, step);
        if (radial(state) < 0.0) != (radial(next) < 0.0) {
            let turning = turning_radius(mu, next);
            (lowest, highest) = (lowest.min(turning), highest.max(turning));
        }
        let radius = size(next[0]);
        (lowest, highest) = (lowest.min(radius), highest.max(radius));
        state = next;
        left = if step < left { left - step } else { 0.0 };
    }
    Flown { end: state[0], lowest, highest }
}

fn stepped(mu: f64, state: State, step: f64) -> State {
    let mut rates = vec![rate(mu, state)];
    for parts in STAGES {
        rates.push(rate(mu, moved(state, &rates, parts, step)));
    }
    moved(state, &rates, &WHOLE, step)
}

/// Returns the derivative of a state: the velocity and the acceleration.
fn rate(mu: f64, [position, velocity]: State) -> State {
    let radius = size(position);
    [velocity, position.map(|component| -mu / radius / radius * (component / radius))]
}

/// Returns the state after a time with the sum of the given parts of the rates.
fn moved(state: State, rates: &[State], parts: &[f64], time: f64) -> State {
    let sum = |i: usize, j: usize| rates.iter().zip(parts).map(|(rate, part)| part * rate[i][j]).sum::<f64>();
    std::array::from_fn(|i| std::array::from_fn(|j| state[i][j] + time * sum(i, j)))
}

/// Returns the rate of the distance from the centre.
fn radial([position, velocity]: State) -> f64 {
    (0..3).map(|i| position[i] / size(position) * velocity[i]).sum()
}

/// Returns the distance at the perigee or apogee that the state has just passed. A step goes back to about there.
fn turning_radius(mu: f64, state: State) -> f64 {
    let back = stepped(mu, state, -radial(state) / radial_rate(mu, state));
    size(back[0]) - radial(back).powi(2) / (2.0 * radial_rate(mu, back))
}

/// Returns the rate of `radial`.
fn radial_rate(mu: f64, state: State) -> f64 {
    let radius = size(state[0]);
    (size(state[1]).powi(2) - radial(state).powi(2)) / radius - mu / radius / radius
}
