//! The stretches of a transfer's orbit: from r1 to r2, and from r2 on to r1.

use crate::arc::Arc;
use std::f64::consts::{PI, TAU};

/// A stretch of an orbit. From its begin to its end, the true anomaly and the angle after r1 grow together.
#[derive(Clone, Copy)]
pub struct Stretch {
    pub anomalies: [f64; 2],
    angles: [f64; 2],
}

impl Stretch {
    /// Returns the stretch from r1 to r2 and that from r2 to r1. `outward` tells whether the distance grows at r2.
    pub fn both(arc: &Arc, outward: bool) -> [Stretch; 2] {
        let (departure, angle) = (arc.departure, arc.angle);
        let arrival = departure + angle + miss(arc, outward);
        [
            Stretch { anomalies: [departure, arrival], angles: [0.0, angle] },
            Stretch { anomalies: [arrival, departure + TAU], angles: [angle, TAU] },
        ]
    }

    /// Returns the angle after r1 at a true anomaly.
    pub fn angle(&self, anomaly: f64) -> f64 {
        let [[from, to], [first, last]] = [self.anomalies, self.angles];
        if anomaly == to {
            return last;
        }
        first + (anomaly - from) / (to - from) * (last - first)
    }

    /// Reports whether the stretch passes the apogee.
    pub fn passes_apogee(&self) -> bool {
        let [from, to] = self.anomalies;
        [PI, PI + TAU].iter().any(|apogee| (from..=to).contains(apogee))
    }
}

/// Returns how much the true anomaly at r2 differs from that at r1 plus the angle between them. If r2 is very far away and nearly on
/// one line with r1, then the last digits of v1 decide where the orbit meets the direction of r2, and the distance of r2 tells its
/// true anomaly better. Elsewhere the difference is 0.
fn miss(arc: &Arc, outward: bool) -> f64 {
    let (expected, wanted) = (arc.departure + arc.angle, arc.radii[1]);
    if (arc.radius_at(expected) - wanted).abs() <= 1e-4 * wanted {
        return 0.0;
    }
    let e = arc.eccentricity;
    let ratio = arc.apogee.map_or((1.0 - e) / (1.0 + e), |apogee| arc.perigee / apogee);
    // The square of the cosine of half the true anomaly, as in `Arc::radius_at`.
    let square = ((arc.perigee / wanted - ratio) / (1.0 - ratio)).clamp(0.0, 1.0);
    let half = (1.0 - square).sqrt().atan2(square.sqrt());
    let found = if outward { 2.0 * half } else { TAU - 2.0 * half };
    let difference = (found - expected).rem_euclid(TAU);
    Some(if difference > PI { difference - TAU } else { difference })
        .filter(|it| it.is_finite())
        .unwrap_or(0.0)
}
