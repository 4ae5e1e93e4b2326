//! Draws the curve with few points. Of the stations in one column of the picture, `trace` keeps the first, the lowest, the highest
//! and the last, so that a curve with points on both sides of the wanted time keeps points on both sides. It marks each column that
//! has a void station.

use super::axes::Axes;
use super::curve::Place;
use crate::reason::Reason;
use std::collections::BTreeSet;

/// The width of a column.
const COLUMN: f64 = 1.0;

pub struct Trace {
    /// The data of an SVG path, which breaks at void stations.
    pub path: String,
    pub voids: Vec<VoidColumns>,
}

/// Neighbouring columns with void stations of the same reasons: where they begin and end.
#[derive(Debug, PartialEq)]
pub struct VoidColumns {
    pub from: f64,
    pub to: f64,
    pub reasons: BTreeSet<Reason>,
}

type Point = (f64, f64);

pub fn trace(stations: &[Place], axes: &Axes) -> Trace {
    let mut trace = Trace { path: String::new(), voids: Vec::new() };
    let mut joined = false;
    for places in stations.chunk_by(|a, b| column(a.0, axes) == column(b.0, axes)) {
        let reasons: BTreeSet<Reason> = places.iter().filter_map(|(_, time)| time.err()).collect();
        if !reasons.is_empty() {
            mark(&mut trace.voids, column(places[0].0, axes), reasons);
        }
        let timed = |place: &Place| Some((axes.across(place.0), axes.down(place.1.ok()?)));
        let points = kept(&places.iter().filter_map(timed).collect::<Vec<_>>());
        joined &= places[0].1.is_ok();
        for (x, y) in points {
            // Each part of the path begins with a line of length zero, so that a single station is drawn as a dot.
            let begin = if joined { String::new() } else { format!("M{x:.2} {y:.2}") };
            trace.path += &format!("{begin} {x:.2} {y:.2}");
            joined = true;
        }
        joined = places[places.len() - 1].1.is_ok();
    }
    trace
}

fn column(x: f64, axes: &Axes) -> f64 {
    (axes.across(x) / COLUMN).floor() * COLUMN
}

/// Adds a column to the last ones, if it follows them directly and has the same reasons, or begins new ones.
fn mark(voids: &mut Vec<VoidColumns>, column: f64, reasons: BTreeSet<Reason>) {
    match voids.last_mut() {
        Some(last) if last.to == column && last.reasons == reasons => last.to += COLUMN,
        _ => voids.push(VoidColumns { from: column, to: column + COLUMN, reasons }),
    }
}

/// Returns the first, the highest, the lowest and the last of some points, in their order and without repeats.
fn kept(points: &[Point]) -> Vec<Point> {
    let by_height = |a: &usize, b: &usize| points[*a].1.total_cmp(&points[*b].1);
    let all = 0..points.len();
    let ends = [all.clone().next(), all.clone().min_by(by_height), all.clone().max_by(by_height), all.last()];
    let mut places: Vec<usize> = ends.into_iter().flatten().collect();
    places.sort_unstable();
    places.dedup();
    places.into_iter().map(|i| points[i]).collect()
}

#[cfg(test)]
mod tests;
