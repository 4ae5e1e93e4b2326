use super::*;
use std::f64::consts::{FRAC_PI_2, PI};

fn state(position: Vector, velocity: Vector) -> State {
    State { position, velocity }
}

/// Returns the largest difference between the components of two states.
fn apart(a: State, b: State) -> f64 {
    let both = |s: State| [s.position, s.velocity].concat();
    both(a).iter().zip(both(b)).map(|(x, y)| (x - y).abs()).fold(0.0, f64::max)
}

#[test]
fn a_quarter_of_a_circle() {
    let start = state([1.0, 0.0, 0.0], [0.0, 1.0, 0.0]);
    for whole in 0..20 {
        let end = propagate(start, 1.0, FRAC_PI_2 + 2.0 * PI * f64::from(whole));
        assert!(apart(end, state([0.0, 1.0, 0.0], [-1.0, 0.0, 0.0])) < 1e-13, "{whole}: {end:?}");
    }
}

/// A flight from a low orbit around the Earth to the geostationary orbit takes half a period of the ellipse
/// between them. The test also adds whole revolutions.
#[test]
fn a_hohmann_transfer() {
    let (mu, low, high) = (398600.4418f64, 6678.0, 42164.0);
    let a: f64 = (low + high) / 2.0;
    let speed = |r: f64| (mu * (2.0 / r - 1.0 / a)).sqrt();
    let half = PI * (a * a * a / mu).sqrt();
    let start = state([low, 0.0, 0.0], [0.0, 0.0, speed(low)]);
    for whole in [0.0, 1.0, 16.0] {
        let end = propagate(start, mu, half * (1.0 + 2.0 * whole));
        assert!(apart(end, state([-high, 0.0, 0.0], [0.0, 0.0, -speed(high)])) < 1e-8, "{end:?}");
    }
}

/// Compares with Kepler's equation for the hyperbola, M = e·sinh H − H, starting at the pericentre.
#[test]
fn a_hyperbola() {
    for (a, e) in [(1.0, 2.0), (0.5, 1.001), (3.0, 40.0)] {
        for h in [1e-3f64, 0.5, 2.0, 6.0] {
            let (p, b): (f64, f64) = (a * (e - 1.0), a * ((e - 1.0) * (e + 1.0f64)).sqrt());
            let start = state([p, 0.0, 0.0], [0.0, b / a / p * a.sqrt(), 0.0]);
            let r = a * (e * h.cosh() - 1.0);
            let end = state(
                [a * (e - h.cosh()), b * h.sinh(), 0.0],
                [-a.sqrt() * h.sinh() / r, b / a.sqrt() * h.cosh() / r, 0.0],
            );
            let time = (e * h.sinh() - h) * a.powf(1.5);
            assert!(apart(propagate(start, 1.0, time), end) < 1e-11 * (1.0 + r), "{a} {e} {h}");
        }
    }
}

/// Compares with Barker's equation for the parabola with pericentre 1: t = √2·(w + w³/3), where w is the
/// tangent of half the true anomaly.
#[test]
fn a_parabola() {
    let start = state([1.0, 0.0, 0.0], [0.0, 2f64.sqrt(), 0.0]);
    for w in [0.01, 0.7, 1.0, 5.0] {
        let end = propagate(start, 1.0, 2f64.sqrt() * (w + w * w * w / 3.0));
        let expected = [1.0 - w * w, 2.0 * w, 0.0];
        let miss = (0..3).map(|i| (end.position[i] - expected[i]).abs()).fold(0.0, f64::max);
        assert!(miss < 1e-12 * (1.0 + w * w), "{w}: {end:?}");
    }
}

/// Flies forward and then back to the start, on ellipses, near-parabolas and hyperbolas, starting inwards and outwards.
#[test]
fn time_reversed() {
    for speed in [0.3, 0.9, 1.2, 1.414, 1.415, 2.0, 5.0] {
        for inwards in [-0.9, -0.2, 0.0, 0.4, 0.9f64] {
            let across = (1.0 - inwards * inwards).sqrt();
            let start =
                state([0.6, 0.0, 0.8], [0.6 * inwards * speed, across * speed, 0.8 * inwards * speed]);
            for time in [0.1, 1.0, 10.0, 100.0] {
                let back = propagate(propagate(start, 1.0, time), 1.0, -time);
                assert!(apart(start, back) < 1e-9, "{speed} {inwards} {time}: {}", apart(start, back));
            }
        }
    }
}

/// A time of 0 changes nothing, and every flight keeps its energy and its angular momentum.
#[test]
fn what_the_motion_keeps() {
    let start = state([1.0, 0.2, -0.3], [0.1, 1.1, 0.2]);
    assert!(apart(propagate(start, 1.0, 0.0), start) < 1e-15);
    let energy = |s: State| square(s.velocity) / 2.0 - 1.0 / square(s.position).sqrt();
    let momentum = |s: State| square(crate::triangle::cross(s.position, s.velocity));
    for time in [0.5, 3.0, 50.0, -20.0] {
        let end = propagate(start, 1.0, time);
        assert!((energy(end) - energy(start)).abs() < 1e-13);
        assert!((momentum(end) - momentum(start)).abs() < 1e-13);
    }
}

/// The series and the closed forms agree at the limit between them.
#[test]
fn both_forms_of_the_universal_functions() {
    for alpha in [1.0f64, -1.0, 0.01, -0.01] {
        let chi = 1.0 / alpha.abs().sqrt();
        let (below, above) = (universal(alpha, chi * (1.0 - 1e-12)), universal(alpha, chi * (1.0 + 1e-12)));
        for i in 0..4 {
            assert!((below[i] - above[i]).abs() < 1e-11 * below[i].abs(), "{alpha} {i}");
        }
    }
}
