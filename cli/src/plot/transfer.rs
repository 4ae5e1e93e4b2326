//! The picture of a question's transfers in their plane, to one scale, with the body at the centre.

mod body;
mod drawing;
mod marks;
mod path;
mod stretch;
mod view;

use super::room::Point;
use crate::arc::Arc;
use crate::surface::Surface;
use crate::wire::{Entry, Outcome, Question};
use path::{Grain, Step};
use stretch::Stretch;
use view::View;

/// The least radius of the body in the picture.
const DOT: f64 = 1.5;

pub struct Transfers {
    flights: Vec<Flown>,
    body: Option<Surface>,
}

/// The arc of a transfer, its way from r1 to r2 and, with whole revolutions, the rest of its ellipse from r2 to r1.
struct Flown {
    arc: Arc,
    way: Vec<Step>,
    rest: Vec<Step>,
}

impl Transfers {
    /// Returns the transfers of an answer, or `None` for a refusal.
    pub fn of(question: &Question, outcome: &Outcome, radius: Option<f64>) -> Option<Transfers> {
        let Outcome::Answered(entries) = outcome else { return None };
        let body = Surface::of(question.mu, radius);
        let orbits: Vec<(Arc, [Stretch; 2])> = entries.iter().map(|entry| orbit(question, entry)).collect();
        let size = orbits.iter().map(greatest).fold(0.0, f64::max);
        let flown = |(arc, [way, rest]): (Arc, [Stretch; 2])| {
            // If r1 or r2 is at the surface itself, rounding does not put it below.
            let surface = body.as_ref().map(|body| body.radius).filter(|radius| arc.lowest() < *radius);
            let grain = Grain { size, radius: surface.unwrap_or(0.0) };
            let rest = if arc.revolutions > 0 { grain.steps(&arc, rest) } else { Vec::new() };
            Flown { way: grain.steps(&arc, way), rest, arc }
        };
        Some(Transfers { flights: orbits.into_iter().map(flown).collect(), body })
    }
}

fn orbit(question: &Question, entry: &Entry) -> (Arc, [Stretch; 2]) {
    let arc = Arc::of(question, entry);
    let outward = (0..3).map(|i| question.r2[i] * entry.v2[i]).sum::<f64>() > 0.0;
    let stretches = Stretch::both(&arc, outward);
    (arc, stretches)
}

/// Returns the greatest distance from the centre on the way of a transfer, with all revolutions.
fn greatest((arc, [way, _]): &(Arc, [Stretch; 2])) -> f64 {
    let ends = arc.radii[0].max(arc.radii[1]);
    let passes = arc.revolutions > 0 || way.passes_apogee();
    arc.apogee.filter(|_| passes).map_or(ends, |apogee| apogee.max(ends))
}

impl Transfers {
    fn view(&self, top: f64) -> View {
        let steps = self.flights.iter().flat_map(|flown| flown.way.iter().chain(&flown.rest));
        let points = steps.map(|step| step.place).chain(self.positions().map(|(_, place)| place));
        View::of(points, self.body.as_ref().map_or(0.0, |body| body.radius), top)
    }

    /// Returns the names of both positions and where they are in the plane. All transfers of an answer have the same.
    fn positions(&self) -> impl Iterator<Item = (&'static str, Point)> {
        let ends = self.flights.first().map(|Flown { arc, .. }| {
            let (sine, cosine) = arc.angle.sin_cos();
            [("r1", (arc.radii[0], 0.0)), ("r2", (arc.radii[1] * cosine, arc.radii[1] * sine))]
        });
        ends.into_iter().flatten()
    }

    /// Returns a warning for each transfer that passes below the surface.
    fn warnings(&self) -> impl Iterator<Item = String> + '_ {
        let lowest = self.flights.iter().map(|flown| flown.arc.lowest());
        lowest.enumerate().filter_map(|(i, lowest)| body::warning(self.body.as_ref()?, i + 1, lowest))
    }

    /// Returns the picture in words: a heading, the body, and what is known about the surface.
    pub fn words(&self) -> Vec<String> {
        let (transfers, their) =
            if self.flights.len() == 1 { ("transfer", "its") } else { ("transfers", "their") };
        let mut words = vec![format!(
            "The {transfers} in {their} plane, to scale, seen from the side from which the motion is counter-clockwise"
        )];
        let Some(body) = &self.body else {
            words.push("The cross is the centre. The body's radius is not known; --radius gives it".into());
            return words;
        };
        let small = body.radius * self.view(0.0).scale < DOT;
        words.push(body::words(body, small));
        words.extend(self.warnings());
        if words.len() == 2 {
            words.push(format!("no transfer passes below the surface of {}", body.body()));
        }
        words
    }
}

#[cfg(test)]
mod tests;
