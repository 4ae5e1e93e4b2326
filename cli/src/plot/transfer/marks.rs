//! The marks in the picture: lines, arrowheads, numbers, both positions and the scale bar.

use super::path::distance;
use super::view::View;
use crate::plot::measure::BOLD;
use crate::plot::room::{Point, Room};
use crate::plot::sheet::MARGIN;
use crate::plot::svg::{label, line, text, DARK};

/// The colours of the transfers.
const COLOURS: [&str; 4] = ["#17407a", "#1b7a4b", "#7a3d99", "#8a5a00"];

/// A way below this length has its arrowhead beside it.
const SHORT: f64 = 36.0;

pub fn colour(i: usize) -> &'static str {
    COLOURS[i % COLOURS.len()]
}

/// Draws a line through points of the picture.
pub fn polyline(points: &[Point], style: &str) -> String {
    let places: Vec<String> = points.iter().map(|(x, y)| format!("{x:.2} {y:.2}")).collect();
    format!(
        "<polyline {style} fill=\"none\" stroke-linecap=\"round\" stroke-linejoin=\"round\" points=\"{}\"/>\n",
        places.join(" ")
    )
}

/// Draws an arrowhead that shows the direction of a transfer. If the way is too short for it, it is beside the way.
pub fn arrowhead(i: usize, way: &[Point], room: &mut Room) -> String {
    let ((x, y), (dx, dy)) = near_way(way, 0.6);
    let corner = |along: f64, across: f64| {
        format!("{:.2} {:.2}", x + along * dx - across * dy, y + along * dy + across * dx)
    };
    let corners = [corner(6.0, 0.0), corner(-5.0, 4.5), corner(-5.0, -4.5)].join(" ");
    room.take([x - 7.0, y - 7.0, x + 7.0, y + 7.0]);
    format!("<polygon class=\"direction\" fill=\"{}\" points=\"{corners}\"/>\n", colour(i))
}

/// Draws the number of a transfer beside its way, away from the centre if there is space.
pub fn number(i: usize, way: &[Point], room: &mut Room) -> String {
    let (place, (dx, dy)) = near_way(way, 0.4);
    let words = (i + 1).to_string();
    label(
        room.label(&words, BOLD, &[place], dx.atan2(-dy), if length(way) < SHORT { 8.0 } else { 5.0 }),
        colour(i),
        &words,
    )
}

/// Returns the point after a part of a way's length, or beside it if the way is short, and the direction there as a unit vector.
fn near_way(way: &[Point], part: f64) -> (Point, Point) {
    let ((x, y), (dx, dy)) = part_way(way, part);
    let aside = if length(way) < SHORT { 13.0 } else { 0.0 };
    // The direction of motion turned clockwise points away from the centre.
    ((x - aside * dy, y + aside * dx), (dx, dy))
}

fn length(way: &[Point]) -> f64 {
    way.windows(2).map(|pair| distance(pair[0], pair[1])).sum()
}

/// Returns the point after a part of a way's length, and the direction there as a unit vector.
fn part_way(way: &[Point], part: f64) -> (Point, Point) {
    let mut length = part * length(way);
    let mut found = (way[0], (0.0, -1.0));
    for pair in way.windows(2) {
        let (a, b) = (pair[0], pair[1]);
        let chord = distance(a, b);
        if chord > 0.0 {
            let (dx, dy) = ((b.0 - a.0) / chord, (b.1 - a.1) / chord);
            let along = length.min(chord);
            found = ((a.0 + along * dx, a.1 + along * dy), (dx, dy));
            length -= chord;
            if length <= 0.0 {
                break;
            }
        }
    }
    found
}

/// Draws a position as a point with its name, away from the centre if there is space.
pub fn position(name: &str, (x, y): Point, view: &View, room: &mut Room) -> String {
    let toward = (y - view.centre.1).atan2(x - view.centre.0);
    let at = room.label(name, BOLD, &[(x, y)], toward, 7.0);
    format!("<circle class=\"position\" cx=\"{x:.2}\" cy=\"{y:.2}\" r=\"3.2\" fill=\"{DARK}\"/>\n")
        + &label(at, DARK, name)
}

/// Draws the scale bar at a height of the page.
pub fn bar(view: &View, y: f64) -> String {
    let (length, words) = view.bar();
    let style = format!("stroke=\"{DARK}\" stroke-width=\"1.5\"");
    let (left, right) = (MARGIN, MARGIN + length);
    [[left, y, right, y], [left, y - 4.0, left, y + 4.0], [right, y - 4.0, right, y + 4.0]]
        .map(|ends| line(ends, &style))
        .concat()
        + &text(right + 8.0, y + 4.5, "class=\"scale\"", &words)
}
