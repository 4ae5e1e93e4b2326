//! The way of a transfer in its plane, as points that are close enough together for a picture.

use super::stretch::Stretch;
use crate::arc::Arc;
use crate::plot::room::Point;
use std::f64::consts::PI;

/// A point of the way in km: the first coordinate counts toward r1, the second toward where the motion goes from there.
#[derive(Clone, Copy, Debug, PartialEq)]
pub struct Step {
    anomaly: f64,
    pub place: Point,
    pub below: bool,
}

/// How ways are sampled: the distances from the centre that the picture shows go up to `size`, and the surface is at `radius`.
pub struct Grain {
    pub size: f64,
    pub radius: f64,
}

impl Grain {
    /// Returns the steps of a stretch. The perigee and the apogee on it are among the steps.
    pub fn steps(&self, arc: &Arc, stretch: Stretch) -> Vec<Step> {
        let [from, to] = stretch.anomalies;
        let mut anomalies: Vec<f64> = (0..8).map(|i| from + (to - from) * f64::from(i) / 8.0).collect();
        let turns = (1..=4).map(|i| f64::from(i) * PI);
        anomalies.extend(turns.chain([to]).filter(|turn| (from..=to).contains(turn)));
        anomalies.sort_by(f64::total_cmp);
        let step = |anomaly: f64| {
            // Rounding may lead a little farther, and the other branch of a hyperbola has no point.
            let distance = arc.radius_at(anomaly).min(self.size);
            let (sine, cosine) = stretch.angle(anomaly).sin_cos();
            Step { anomaly, place: (distance * cosine, distance * sine), below: distance < self.radius }
        };
        let mut steps = vec![step(from)];
        anomalies[1..].iter().for_each(|anomaly| self.refine(&step, &mut steps, step(*anomaly), 0));
        steps
    }

    /// Adds the steps after the last one up to `next`, with as many between them as the picture needs.
    fn refine(&self, step: &impl Fn(f64) -> Step, steps: &mut Vec<Step>, next: Step, depth: u32) {
        let last = steps[steps.len() - 1];
        let middle = step(0.5 * (last.anomaly + next.anomaly));
        let chord = distance(last.place, next.place);
        let straight = (0.5 * (last.place.0 + next.place.0), 0.5 * (last.place.1 + next.place.1));
        let coarse = chord > self.size / 50.0
            || distance(middle.place, straight) > self.size / 3_000.0
            || (last.below != next.below && chord > self.size / 1_500.0);
        if coarse && depth < 40 {
            self.refine(step, steps, middle, depth + 1);
            self.refine(step, steps, next, depth + 1);
        } else {
            steps.push(next);
        }
    }
}

/// Parts steps where the way goes below the surface or comes up. Neighbouring parts share a step.
pub fn parts(steps: &[Step]) -> Vec<(bool, Vec<Point>)> {
    let mut parts: Vec<(bool, Vec<Point>)> = Vec::new();
    for pair in steps.windows(2) {
        let below = pair[0].below || pair[1].below;
        match parts.last_mut() {
            Some((same, points)) if *same == below => points.push(pair[1].place),
            _ => parts.push((below, vec![pair[0].place, pair[1].place])),
        }
    }
    parts
}

pub fn distance(a: Point, b: Point) -> f64 {
    (a.0 - b.0).hypot(a.1 - b.1)
}
