use super::*;
use crate::entrance::{judge, ROOM};
use crate::questions::{cases, document};
use crate::time::{time_at, HIGHEST, LOWEST, SPACING};
use crate::triangle::square;
use crate::wire::Question;
use std::f64::consts::FRAC_PI_2;

fn near(v: Vector, w: Vector) -> bool {
    (0..3).all(|i| (v[i] - w[i]).abs() < 1e-6)
}

/// Finds the first pair of stations on different sides, bisects it down to neighbouring places, and returns the nearer one.
fn place(p: &Problem) -> i64 {
    let time = |k| time_at(p.triangle.lambda, k, p.revolutions).unwrap();
    let below = |k| time(k) < p.wanted_time;
    let mut low =
        (LOWEST..HIGHEST).step_by(SPACING as usize).find(|&k| below(k) != below(k + SPACING)).unwrap();
    let mut high = low + SPACING;
    while high - low > 1 {
        let middle = (low + high) / 2;
        *(if below(middle) == below(low) { &mut low } else { &mut high }) = middle;
    }
    let error = |k| (time(k) - p.wanted_time).abs();
    if error(high) < error(low) {
        high
    } else {
        low
    }
}

/// A quarter of the circle of radius 1, in π/2 s, and the other three quarters, the long way, in 3π/2 s.
#[test]
fn a_circle() {
    for (way, time, turn) in [(0, FRAC_PI_2, 1.0), (1, 3.0 * FRAC_PI_2, -1.0)] {
        let question = Question { revolutions: 0, way, time, ..document() };
        let problem = judge(&question.write(), ROOM).unwrap();
        let [v1, v2] = Flight::new(&problem, place(&problem)).velocities();
        assert!(near(v1, [0.0, turn, 0.0]), "{way}: {v1:?}");
        assert!(near(v2, [-turn, 0.0, 0.0]), "{way}: {v2:?}");
    }
}

/// Both velocities have the energy −mu·u/s of the orbit, if the radii aren't too different.
#[test]
fn the_energy_of_the_orbit() {
    let problems = cases().into_iter().filter_map(|c| judge(&c.bytes, c.room.into()).ok());
    let mut tried = 0;
    for p in problems.filter(|p| (0.001..1000.0).contains(&(p.radius1 / p.radius2))) {
        for k in [LOWEST, -12345678, 0, 1 << 31, 1 << 32, HIGHEST] {
            let x = x_of(k);
            let energy = -p.mu * (1.0 - x * x) / p.triangle.semiperimeter;
            let velocities = Flight::new(&p, k).velocities();
            for (v, r) in velocities.into_iter().zip([p.radius1, p.radius2]) {
                let (moving, pulled) = (square(v) / 2.0, p.mu / r);
                assert!((moving - pulled - energy).abs() < 1e-8 * (moving + pulled), "{p:?} {k}");
            }
            tried += 1;
        }
    }
    assert!(tried > 3000, "{tried}");
}

#[test]
fn refused_roots_are_nan() {
    for refused in [-1.0, -f64::from_bits(1), f64::INFINITY, f64::NEG_INFINITY, f64::NAN] {
        assert!(root(refused).is_nan());
    }
    assert_eq!(root(-0.0).to_bits(), (-0.0f64).to_bits());
    assert_eq!(root(2.0).to_bits(), 0x3FF6_A09E_667F_3BCD);
}
