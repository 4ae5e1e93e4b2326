//! What follows from a transfer and its question: the shape of the orbit, the least distance on the way, the velocity
//! changes and the miss at r2. All of it is computed for display: it is tested, not proved.

use super::circular;
use crate::arc::Arc;
use crate::propagation;
use crate::surface::Surface;
use crate::wire::{Entry, Question};
use crate::words::number;

pub struct Facts {
    pub arc: Arc,
    /// The velocity changes from and to a circular orbit, in km/s.
    pub changes: [f64; 2],
    /// The distance from r2 at arrival in m, if it could be computed.
    pub miss: Option<f64>,
    pub surface: Option<Surface>,
}

impl Facts {
    /// Returns the facts of an entry. `radius` is that of the body in km, if it was given.
    pub fn of(question: &Question, entry: &Entry, radius: Option<f64>) -> Facts {
        Facts {
            arc: Arc::of(question, entry),
            changes: circular::changes(question, entry),
            miss: propagation::miss(question, entry).map(|km| 1000.0 * km),
            surface: Surface::of(question.mu, radius),
        }
    }

    /// Returns the surface if the arc from r1 to r2 passes below it.
    pub fn passed(&self) -> Option<Surface> {
        self.surface.filter(|surface| self.arc.lowest() < surface.radius)
    }

    /// Returns the sentences that have to be known before a transfer is used.
    pub fn warnings(&self) -> Vec<String> {
        let surface = self.surface.and_then(|surface| surface.warning(self.arc.lowest()));
        [surface, self.miss_warning()].into_iter().flatten().collect()
    }

    fn miss_warning(&self) -> Option<String> {
        let km = self.miss? / 1000.0;
        let far = km > LARGE_MISS * self.arc.radii[1];
        far.then(|| {
            format!(
                "misses r2 by {} km: correct v1 with a propagation before you use it",
                number(rounded(km))
            )
        })
    }
}

/// The part of |r2| above which a miss is large. The transfers of mission-like questions in the tests stay below a tenth of it.
const LARGE_MISS: f64 = 1e-4;

/// Returns a number with three digits.
fn rounded(value: f64) -> f64 {
    format!("{value:.2e}").parse().unwrap_or(value)
}
