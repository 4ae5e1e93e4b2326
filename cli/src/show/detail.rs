//! What `--detail` adds below a row: the question, the bracket, the components of the velocities.

use super::facts::Facts;
use super::item::Transfer;
use super::numbers::distance;
use super::pairs::Asked;
use crate::orbit::{end, x_of};
use crate::vectors::size;
use crate::words::{self, component, number};

/// Returns what was asked.
pub fn asked(asked: &Asked) -> Vec<String> {
    match asked {
        Asked::Unknown => Vec::new(),
        Asked::NoQuestion(words) => vec![format!("asked: {words}")],
        Asked::Known(question) => vec![format!("asked: {}", words::asked(question).join(", "))],
    }
}

/// Returns the bracket and the velocities of a transfer and, if the question is known, more of its shape.
pub fn transfer(transfer: &Transfer) -> Vec<String> {
    let Transfer { entry, facts, .. } = *transfer;
    let (k, width) = (entry.chosen(), entry.width());
    let mut sentences = vec![
        format!(
            "x = {:.12}, the {} end of the bracket from k = {} to {}: width {width} in k, {:.3e} in x, {} halvings",
            x_of(k),
            end(entry),
            entry.low,
            entry.low + width,
            x_of(width),
            entry.halvings
        ),
        format!("v1 = {} km/s, v2 = {} km/s", velocity(entry.v1), velocity(entry.v2)),
    ];
    if let Some(Facts { arc, surface, .. }) = facts {
        let surface = match surface {
            Some(surface) => {
                let (body, radius) = (surface.body(), number(surface.radius));
                format!("{body} has the radius {radius} km ({})", surface.source)
            }
            None => "the radius of the body is not known, give it with --radius".into(),
        };
        let lowest = distance(arc.lowest());
        sentences.push(format!(
            "eccentricity {:.9}, lowest point on the way {lowest} km; {surface}",
            arc.eccentricity
        ));
    }
    sentences
}

fn velocity(v: [f64; 3]) -> String {
    format!("({})", v.map(|part| component(part, size(v))).join(", "))
}
