//! The arc of a transfer from r1 to r2, as two-body motion gives it from r1 and v1. This is for display: it is tested, not proved.

use crate::orbit::kind;
use crate::propagation::radius_over_axis;
use crate::vectors::{cross, dot, size};
use crate::wire::{Entry, Question};
use std::f64::consts::TAU;

pub struct Arc {
    pub eccentricity: f64,
    /// The least distance of the whole orbit from the centre, in km.
    pub perigee: f64,
    /// The greatest distance of the whole orbit from the centre, in km. It is `None` unless the orbit is an ellipse.
    pub apogee: Option<f64>,
    /// The angle between the normal of the orbit and the z axis of the positions' frame, in degrees, from 0 to 180.
    pub inclination: f64,
    /// The true anomaly at r1: 0 <= departure < 2π. On a circular orbit it is 0.
    pub departure: f64,
    /// The angle from r1 to r2 in the direction of motion, without whole revolutions: 0 <= angle < 2π.
    pub angle: f64,
    pub revolutions: u16,
    /// |r1| and |r2|, in km.
    pub radii: [f64; 2],
}

impl Arc {
    pub fn of(question: &Question, entry: &Entry) -> Arc {
        let Question { r1, r2, mu, revolutions, .. } = *question;
        let radii = [r1, r2].map(size);
        let [up, end] = [(r1, radii[0]), (r2, radii[1])].map(|(r, size)| r.map(|component| component / size));
        let normal = cross(up, entry.v1);
        let (radial, transverse) = (dot(up, entry.v1), size(normal));
        // The eccentricity times the cosine and the sine of the true anomaly at r1.
        let cosine = transverse * transverse * radii[0] / mu - 1.0;
        let sine = radial * transverse * radii[0] / mu;
        let eccentricity = cosine.hypot(sine);
        let semilatus_rectum = (transverse * radii[0]).powi(2) / mu;
        let ahead = if transverse > 0.0 { dot(cross(up, end), normal) / transverse } else { 0.0 };
        Arc {
            eccentricity,
            perigee: semilatus_rectum / (1.0 + eccentricity),
            apogee: semimajor_axis(question, entry).map(|a| a * (1.0 + eccentricity)),
            inclination: normal[0].hypot(normal[1]).atan2(normal[2]).to_degrees(),
            departure: turn(sine, cosine),
            angle: turn(ahead, dot(up, end)),
            revolutions,
            radii,
        }
    }

    /// Returns the distance from the centre at a true anomaly. It is infinite where a parabola or a hyperbola has no point.
    pub fn radius_at(&self, anomaly: f64) -> f64 {
        // With half of the anomaly, digits are not lost near the apogee of a long ellipse.
        let (sine, cosine) = (0.5 * anomaly).sin_cos();
        let e = self.eccentricity;
        let ratio = self.apogee.map_or((1.0 - e) / (1.0 + e), |apogee| self.perigee / apogee);
        let divisor = cosine * cosine + ratio * sine * sine;
        if divisor > 0.0 {
            self.perigee / divisor
        } else {
            f64::INFINITY
        }
    }

    /// Returns the least distance from the centre on the way from r1 to r2, with all revolutions.
    pub fn lowest(&self) -> f64 {
        let ends = self.radii[0].min(self.radii[1]);
        if self.passes_perigee() {
            ends.min(self.perigee)
        } else {
            ends
        }
    }

    /// Reports whether the arc passes the perigee. If r1 or r2 is the perigee itself, rounding decides, and `lowest` does not depend
    /// on it.
    pub fn passes_perigee(&self) -> bool {
        self.revolutions > 0 || self.departure + self.angle >= TAU
    }
}

/// Returns half the length of an ellipse in km, or `None` if the orbit is not an ellipse or if v1 is too close to the speed of a
/// parabola for an f64 to tell.
fn semimajor_axis(question: &Question, entry: &Entry) -> Option<f64> {
    let a = size(question.r1) / radius_over_axis(question.mu, question.r1, entry.v1);
    Some(a).filter(|a| kind(entry) == "ellipse" && a.is_finite() && *a > 0.0)
}

/// Returns the angle with this sine and cosine, both times the same factor: at least 0 and below 2π.
fn turn(sine: f64, cosine: f64) -> f64 {
    let angle = sine.atan2(cosine).rem_euclid(TAU);
    // The remainder of a tiny negative angle is rounded up to 2π.
    if angle < TAU {
        angle
    } else {
        0.0
    }
}

#[cfg(test)]
mod tests;
