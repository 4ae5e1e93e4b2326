//! The graph: axes, void stations, the curve, the wanted time and the brackets.

use super::axes::{Axes, HEIGHT, LEFT, RIGHT};
use super::curve::{Curve, Place};
use super::measure::BOLD;
use super::room::{Point, Room};
use super::sheet::{MARGIN, WIDTH};
use super::svg::{circle, escaped, label, line, rect, text, within, DARK, GREY, RED};
use super::ticks::{linear, logarithmic};
use super::time_scale::TimeScale;
use super::trace::{trace, Trace};
use super::voids::bands;
use std::f64::consts::{FRAC_PI_4, PI};

/// The styles of the curve and the wanted time, in the graph and in the legend.
pub const CURVE: &str =
    "stroke=\"#17407a\" stroke-width=\"2\" stroke-linecap=\"round\" stroke-linejoin=\"round\"";
pub const WANTED: &str = "stroke=\"#b00020\" stroke-width=\"1.8\" stroke-dasharray=\"7 4\"";

const GRID: &str = "stroke=\"#d5d5d5\"";
const PARABOLA: &str = "stroke=\"#555555\" stroke-dasharray=\"2 3\"";

/// Draws the graph of a question with this time in seconds. `brackets` has the words for each entry.
pub fn graph(curve: &Curve, axes: &Axes, seconds: f64, brackets: &[String]) -> String {
    let frame = [LEFT, axes.top, RIGHT - LEFT, HEIGHT];
    let Trace { path, voids } = trace(&curve.stations, axes);
    let mut drawn = levels(axes) + &times(axes, &TimeScale::of(seconds, curve.wanted)) + &places(axes);
    drawn += &voids.iter().map(|columns| bands(columns, axes)).collect::<String>();
    let y = axes.down(curve.wanted);
    drawn += &line([LEFT, y, RIGHT, y], &format!("class=\"wanted\" {WANTED}"));
    drawn += &within(frame, &format!("<path class=\"curve\" fill=\"none\" {CURVE} d=\"{path}\"/>\n"));
    drawn += &rect(frame, &format!("fill=\"none\" stroke=\"{GREY}\""));
    let mut room = room(curve, axes);
    for (i, (place, words)) in curve.chosen.iter().zip(brackets).enumerate() {
        drawn += &bracket(i, spot(*place, curve.wanted, axes), axes, &mut room, words);
    }
    // The label of the wanted time is above its line, at the right end or, if other things are there, elsewhere.
    let points = [RIGHT - 16.0, LEFT + 16.0, RIGHT - 60.0].map(|x| (x, y - 3.0));
    let at = room.label("T*", BOLD, &points, -2.0 * FRAC_PI_4, 3.0);
    drawn + &label(at, RED, "T*")
}

/// Returns the position of the chosen end of a bracket.
fn spot((x, time): Place, wanted: f64, axes: &Axes) -> Point {
    (axes.across(x), axes.down(time.unwrap_or(wanted)))
}

/// Returns the frame with what labels must not cover: the curve, the line of the wanted time, the circles on it and the lines below them.
fn room(curve: &Curve, axes: &Axes) -> Room {
    let mut room = Room::new([LEFT + 2.0, axes.top + 2.0, RIGHT - 2.0, axes.bottom() - 2.0]);
    let y = axes.down(curve.wanted);
    room.take_line((LEFT, y), (RIGHT, y));
    for pair in curve.stations.windows(2) {
        if let [(x, Ok(time)), (next, Ok(then))] = pair {
            room.take_line((axes.across(*x), axes.down(*time)), (axes.across(*next), axes.down(*then)));
        }
    }
    for place in &curve.chosen {
        let (across, down) = spot(*place, curve.wanted, axes);
        room.take([across - 6.0, down - 6.0, across + 6.0, down + 6.0]);
        room.take_line((across, down), (across, axes.bottom()));
    }
    room
}

/// Draws the time axis with its grid lines.
fn levels(axes: &Axes) -> String {
    let mut drawn = text(MARGIN, axes.top - 9.0, "", "T, the normalised time (logarithmic)");
    for (level, label) in logarithmic(axes.levels) {
        let y = axes.down_at(level);
        let width = if label.is_some() { "1" } else { "0.4" };
        drawn += &line([LEFT, y, RIGHT, y], &format!("{GRID} stroke-width=\"{width}\""));
        if let Some(label) = label {
            drawn += &text(LEFT - 5.0, y + 4.5, "text-anchor=\"end\"", &label);
        }
    }
    drawn
}

/// Draws the axis at the right: the same times in a unit of time.
fn times(axes: &Axes, scale: &TimeScale) -> String {
    let (low, high) = axes.levels;
    let name = format!("time in {}", scale.unit);
    let mut drawn = text(WIDTH - MARGIN, axes.top - 9.0, "text-anchor=\"end\"", &name);
    for (level, label) in logarithmic((low + scale.shift, high + scale.shift)) {
        let y = axes.down_at(level - scale.shift);
        let length = if label.is_some() { 5.0 } else { 3.0 };
        drawn += &line([RIGHT, y, RIGHT + length, y], &format!("stroke=\"{GREY}\""));
        if let Some(label) = label {
            drawn += &text(RIGHT + 8.0, y + 4.5, "class=\"time\"", &label);
        }
    }
    drawn
}

/// Draws the x axis with its grid lines. If the axis goes beyond x = 1, the line of the parabola separates ellipses from hyperbolas.
fn places(axes: &Axes) -> String {
    let (bottom, past) = (axes.bottom(), axes.right > 1.0);
    let kinds = if past { " (below 1 ellipses, above 1 hyperbolas)" } else { "" };
    let middle = (LEFT + RIGHT) / 2.0;
    let mut drawn = text(middle, bottom + 34.0, "text-anchor=\"middle\"", &format!("x = k / 2³²{kinds}"));
    for (x, label) in linear(axes.right) {
        let style = if past && x == 1.0 { PARABOLA } else { GRID };
        let across = axes.across(x);
        drawn += &line([across, axes.top, across, bottom], style);
        drawn += &text(across, bottom + 17.0, "text-anchor=\"middle\"", label);
    }
    drawn
}

/// Draws a bracket: a circle at its chosen end on the curve, a line down to its x, and its number beside the circle, below the wanted
/// time if there is space. A bracket is too narrow to be seen; its words give its ends.
fn bracket(i: usize, at: Point, axes: &Axes, room: &mut Room, words: &str) -> String {
    let mut drawn = format!("<g class=\"bracket\"><title>{}</title>\n", escaped(words));
    drawn += &line([at.0, at.1, at.0, axes.bottom()], &format!("stroke=\"{DARK}\" stroke-dasharray=\"1 3\""));
    drawn += &circle(at.0, at.1);
    let toward = if i.is_multiple_of(2) { PI - FRAC_PI_4 } else { FRAC_PI_4 };
    let number = (i + 1).to_string();
    drawn += &label(room.label(&number, BOLD, &[at], toward, 8.0), DARK, &number);
    drawn + "</g>\n"
}
