use super::*;
use crate::arc::Arc;
use crate::orbit::kind;
use flights::{answered, entries_of, extremes, mission, random, Flight};
use runge_kutta::fly;
use std::f64::consts::{PI, TAU};

mod flights;
mod runge_kutta;

/// The steps of the integration, as a part of √(r³/mu).
const STEP: f64 = 1.0 / 128.0;
/// The largest error of the integration that a comparison accepts, as a part of the compared distance.
const COARSE: f64 = 1e-4;
/// The difference that rounding may make, as a part of the compared distance.
const ROUNDING: f64 = 1e-10;

#[test]
fn missions_agree_with_an_integration() {
    let flights = answered(mission, 240);
    let count = |some: fn(&Flight) -> bool| flights.iter().filter(|flight| some(flight)).count();
    assert!(count(|flight| flight.question.revolutions == 8) > 5);
    assert!(count(|flight| flight.question.long_way) > 50);
    assert!(count(|flight| kind(&flight.entry) == "hyperbola") > 5);
    flights.iter().for_each(compare);
}

#[test]
fn random_flights_agree_with_an_integration() {
    answered(random, 120).iter().for_each(compare);
}

/// Compares the end of a flight, its lowest point and, after a whole revolution, its perigee and apogee with an integration. The
/// same integration with steps twice as long differs from it by about 63 times its error.
fn compare(flight: &Flight) {
    let Flight { question, entry } = flight;
    let Question { r1, r2, mu, time, .. } = *question;
    let (fine, coarse) = (fly(question, entry, STEP), fly(question, entry, 2.0 * STEP));
    let check = |what: &str, apart: f64, error: f64, of: f64| {
        assert!(error < COARSE * of, "{what}: the error is {error} of {of}: {flight:?}");
        assert!(apart <= error + ROUNDING * of, "{what}: {apart} of {of} apart: {flight:?}");
    };
    let error = distance(fine.end, coarse.end);
    let end = position_after(mu, r1, entry.v1, time).expect("a position");
    check("end", distance(end, fine.end), error, size(r2));
    let missed = miss(question, entry).expect("a miss");
    check("miss", (missed - distance(fine.end, r2)).abs(), error, size(r2));
    let arc = Arc::of(question, entry);
    let (lowest, error) = (fine.lowest, (fine.lowest - coarse.lowest).abs());
    // The arc ends at r2, and the flight ends a miss away from it.
    check("lowest", (arc.lowest() - lowest).abs(), error + missed, lowest);
    if question.revolutions > 0 {
        check("perigee", (arc.perigee - lowest).abs(), error, lowest);
        let (highest, error) = (fine.highest, (fine.highest - coarse.highest).abs());
        check("apogee", (arc.apogee.expect("an ellipse") - highest).abs(), error, highest);
    }
}

#[test]
fn every_answer_has_an_arc_and_a_miss() {
    let flights: Vec<Flight> = extremes().iter().flat_map(entries_of).collect();
    assert!(flights.len() > 500, "{}", flights.len());
    for flight in &flights {
        let arc = Arc::of(&flight.question, &flight.entry);
        let numbers = [arc.eccentricity, arc.perigee, arc.lowest(), arc.inclination];
        let positive = |number: &f64| number.is_finite() && *number >= 0.0;
        assert!(numbers.iter().all(positive) && arc.apogee.iter().all(positive), "{numbers:?}: {flight:?}");
        assert!((0.0..TAU).contains(&arc.departure) && (0.0..TAU).contains(&arc.angle), "{flight:?}");
        assert!((arc.angle > PI) == flight.question.long_way, "{}: {flight:?}", arc.angle);
        assert!(arc.lowest() <= arc.radii[0].min(arc.radii[1]) && arc.inclination <= 180.0, "{flight:?}");
        assert!(miss(&flight.question, &flight.entry).is_some_and(f64::is_finite), "{flight:?}");
    }
}

/// A quarter and many whole revolutions of a circle with mu = 1, half a revolution of an ellipse with a = 2, and a parabola.
#[test]
fn closed_cases() {
    let up = [1.0, 0.0, 0.0];
    for (v, time, end) in [
        ([0.0, 1.0, 0.0], 0.0, up),
        ([0.0, 1.0, 0.0], PI / 2.0, [0.0, 1.0, 0.0]),
        ([0.0, 0.0, -1.0], PI / 2.0, [0.0, 0.0, -1.0]),
        ([0.0, 1.0, 0.0], 16.0 * TAU, up),
        ([0.0, 1.5f64.sqrt(), 0.0], PI * 8f64.sqrt(), [-3.0, 0.0, 0.0]),
        ([0.0, 2f64.sqrt(), 0.0], 2f64.sqrt() * 4.0 / 3.0, [0.0, 2.0, 0.0]),
    ] {
        let found = position_after(1.0, up, v, time).expect("a position");
        assert!(distance(found, end) < 1e-13, "{found:?}, not {end:?}");
    }
    // A hyperbola so fast that it is nearly a straight line.
    let found = position_after(1.0, up, [-1e3, 1e3, 0.0], 0.1).expect("a position");
    assert!(distance(found, [-99.0, 100.0, 0.0]) < 1e-3, "{found:?}");
}

/// The first product has digits below those of an f64, and the second has a root that is not an f64.
#[test]
fn a_small_energy_keeps_its_digits() {
    let step = 2f64.powi(-27);
    let mu = (1.0 + 6.0 * step) / 2.0 + 2f64.powi(-40);
    let expected = (2f64.powi(-39) - 9.0 * step * step) / mu;
    let found = radius_over_axis(mu, [1.0, 0.0, 0.0], [0.0, 1.0 + 3.0 * step, 0.0]);
    assert!((found / expected - 1.0).abs() < 1e-15, "{found}, not {expected}");
    let root = 3f64.sqrt();
    let found = radius_over_axis(root / 2.0, [1.0; 3], [0.0, 0.0, 1.0]);
    // The root of 3 is larger than the f64 nearest to it by 1.00350842e-16.
    assert!((found * root / 2.0 + 1.003_508_42e-16).abs() < 1e-24, "{found}");
}

#[test]
fn numbers_that_are_not_finite_have_no_position() {
    let (r, v) = ([1.0, 0.0, 0.0], [0.0, 1.0, 0.0]);
    for bad in [f64::NAN, f64::INFINITY] {
        assert_eq!(position_after(bad, r, v, 1.0), None);
        assert_eq!(position_after(1.0, [bad, 0.0, 0.0], v, 1.0), None);
        assert_eq!(position_after(1.0, r, [0.0, bad, 0.0], 1.0), None);
        assert_eq!(position_after(1.0, r, v, bad), None);
    }
    assert_eq!(position_after(0.0, r, v, 1.0), None);
    assert_eq!(position_after(1.0, r, v, 1e200), None);
    assert_eq!(position_after(1.0, [0.0; 3], v, 1.0), None);
}

fn distance(a: [f64; 3], b: [f64; 3]) -> f64 {
    size(std::array::from_fn(|i| a[i] - b[i]))
}
