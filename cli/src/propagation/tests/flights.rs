//! Questions as missions ask them and from anywhere in the allowed ranges, with the answers of the solver.

use crate::proved::record_of;
use crate::vectors::size;
use crate::wire::{Entry, Outcome, Question, Records};
use std::f64::consts::{PI, TAU};

#[derive(Debug)]
pub struct Flight {
    pub question: Question,
    pub entry: Entry,
}

/// Draws questions until as many as wanted are answered, and returns every entry of the answers.
pub fn answered(draw: fn(&mut Draw) -> Question, wanted: usize) -> Vec<Flight> {
    let mut draws = Draw(7);
    let questions = std::iter::repeat_with(|| draw(&mut draws));
    let flown = questions.map(|question| entries_of(&question)).filter(|entries| !entries.is_empty());
    flown.take(wanted).flatten().collect()
}

/// Returns the entries of the answer to a question. There are none if it is refused.
pub fn entries_of(question: &Question) -> Vec<Flight> {
    let record = record_of(&question.bytes());
    let read = Records::new(&record[..]).next().expect("bytes").expect("no fault").expect("a record");
    match read.outcome {
        Outcome::Refused(_) => vec![],
        Outcome::Answered(entries) => {
            entries.into_iter().map(|entry| Flight { question: question.clone(), entry }).collect()
        }
    }
}

/// A fixed sequence of pseudo-random numbers: a linear congruential generator with the constants of Knuth's MMIX.
pub struct Draw(u64);

impl Draw {
    /// Returns a number from 0 to below 1.
    fn part(&mut self) -> f64 {
        self.0 = self.0.wrapping_mul(6_364_136_223_846_793_005).wrapping_add(1_442_695_040_888_963_407);
        (self.0 >> 11) as f64 / (1u64 << 53) as f64
    }

    fn between(&mut self, low: f64, high: f64) -> f64 {
        low + (high - low) * self.part()
    }

    /// Returns a position at this distance in any direction.
    fn position(&mut self, radius: f64) -> [f64; 3] {
        let (z, longitude) = (self.between(-1.0, 1.0), self.between(0.0, TAU));
        let across = (1.0 - z * z).sqrt();
        [across * longitude.cos(), across * longitude.sin(), z].map(|component| radius * component)
    }
}

/// Orbits around the Earth, between the Earth and the distance of the Moon, and around the Sun.
pub fn mission(draw: &mut Draw) -> Question {
    let (mu, [mut r1, mut r2]) = match (3.0 * draw.part()) as u32 {
        0 => (398_600.441_8, [draw.between(6_600.0, 42_164.0), draw.between(6_600.0, 42_164.0)]),
        1 => (398_600.441_8, [draw.between(6_600.0, 7_400.0), draw.between(356_400.0, 406_700.0)]),
        _ => (132_712_440_041.939_38, [draw.between(0.4, 1.6), draw.between(0.4, 1.6)].map(|r| r * 1.496e8)),
    };
    if draw.part() < 0.5 {
        (r1, r2) = (r2, r1);
    }
    asked(draw, mu, r1, r2)
}

/// Distances from the whole allowed range, at most a factor of 16 apart, and any mu.
pub fn random(draw: &mut Draw) -> Question {
    let (mu, size) = (draw.between(0.0, 60.0).exp2(), draw.between(0.0, 36.0));
    let (r1, r2) = (draw.between(size, size + 4.0).exp2(), draw.between(size, size + 4.0).exp2());
    asked(draw, mu, r1, r2)
}

/// Asks for up to 8 revolutions, half of the time for none. The time is that of the revolutions and 0.03 to 2 more on the least
/// possible ellipse.
fn asked(draw: &mut Draw, mu: f64, r1: f64, r2: f64) -> Question {
    let (r1, r2) = (draw.position(r1), draw.position(r2));
    let revolutions = if draw.part() < 0.5 { 0 } else { draw.between(0.0, 9.0) as u16 };
    let time = least_period(mu, r1, r2) * (f64::from(revolutions) + draw.between(0.03, 2.0));
    let long_way = draw.part() < 0.5;
    Question { job: 1, revision: 1, revolutions, long_way, r1, r2, mu, time }
}

/// Numbers at the ends of the allowed ranges, and positions nearly on a line. The smallest component is a denormal number.
pub fn extremes() -> Vec<Question> {
    let mut all = Vec::new();
    let sizes = [1.0, 1.5, 40_000.0, 3e11, 1e12];
    for (r1, r2) in sizes.into_iter().flat_map(|r1| sizes.map(|r2| (r1, r2))) {
        for mu in [1.0, 1e9, 1e18] {
            for angle in [2e-6, 0.01, 1.0, 3.1, PI - 2e-6] {
                for (revolutions, time) in [(0, 0.01), (0, 0.3), (0, 1.5), (1, 0.9), (16, 0.6)] {
                    let r1 = [r1, 5e-324, 0.0];
                    let r2 = [r2 * f64::cos(angle), r2 * f64::sin(angle), -1e-310];
                    let time = least_period(mu, r1, r2) * (f64::from(revolutions) + time);
                    let long_way = all.len() % 2 == 1;
                    all.push(Question { job: 1, revision: 1, revolutions, long_way, r1, r2, mu, time });
                }
            }
        }
    }
    all
}

/// Returns the period of the least possible ellipse through both positions.
fn least_period(mu: f64, r1: [f64; 3], r2: [f64; 3]) -> f64 {
    let chord = size(std::array::from_fn(|i| r1[i] - r2[i]));
    let axis = (size(r1) + size(r2) + chord) / 4.0;
    TAU * axis * (axis / mu).sqrt()
}
