//! Draws the transfers: the body, the ways, both positions, the arrowheads, the scale bar, the legend and the words.

use super::marks::{self, colour, polyline};
use super::path::{parts, Step};
use super::view::View;
use super::{Flown, Transfers, DOT};
use crate::plot::room::{Point, Room};
use crate::plot::sheet::{Sheet, MARGIN};
use crate::plot::svg::{line, GREY, RED};

const WAY: &str = "stroke-width=\"2.2\"";
const ELLIPSE: &str = "stroke-width=\"0.8\"";

impl Transfers {
    /// Draws the transfers below what the sheet has, with a legend and the words.
    pub fn draw(&self, sheet: &mut Sheet) {
        let [heading, words @ ..] = &self.words()[..] else { return };
        sheet.y += 14.0;
        sheet.say(heading);
        let view = self.view(sheet.y + 8.0);
        sheet.drawn += &self.drawing(&view);
        sheet.y = view.frame[3] + 12.0;
        sheet.drawn += &marks::bar(&view, sheet.y);
        sheet.y += 6.0;
        self.legend(sheet);
        sheet.y += 6.0;
        sheet.say(&words[0]);
        let warn = self.warnings().next().is_some();
        words[1..].iter().for_each(|words| if warn { sheet.warn(words) } else { sheet.say(words) });
    }

    /// Draws the body, the ways and their marks. Labels come last, so that they find places where nothing else is.
    pub fn drawing(&self, view: &View) -> String {
        let mut room = Room::new(view.frame);
        let mut drawn = self.centre(view);
        for (i, Flown { way, rest, .. }) in self.flights.iter().enumerate() {
            drawn += &ways(i, "rest", rest, ELLIPSE, view, &mut room);
            drawn += &ways(i, "way", way, WAY, view, &mut room);
        }
        let positions: Vec<(&str, Point)> =
            self.positions().map(|(name, place)| (name, view.at(place))).collect();
        for (_, (x, y)) in &positions {
            room.take([x - 4.0, y - 4.0, x + 4.0, y + 4.0]);
        }
        let seen = |flown: &Flown| flown.way.iter().map(|step| view.at(step.place)).collect();
        let ways: Vec<Vec<Point>> = self.flights.iter().map(seen).collect();
        for (i, way) in ways.iter().enumerate() {
            drawn += &marks::arrowhead(i, way, &mut room);
        }
        for (name, place) in positions {
            drawn += &marks::position(name, place, view, &mut room);
        }
        for (i, way) in ways.iter().enumerate() {
            drawn += &marks::number(i, way, &mut room);
        }
        drawn
    }

    /// Draws the body, or a cross at the centre if the radius is not known.
    fn centre(&self, view: &View) -> String {
        let (x, y) = view.centre;
        let Some(body) = &self.body else {
            let style = format!("class=\"centre\" stroke=\"{GREY}\" stroke-width=\"1.5\"");
            return line([x - 5.0, y, x + 5.0, y], &style) + &line([x, y - 5.0, x, y + 5.0], &style);
        };
        let radius = (body.radius * view.scale).max(DOT);
        let style = if radius > 3.0 * DOT { "#e3e7ec" } else { GREY };
        format!(
            "<circle class=\"body\" cx=\"{x:.2}\" cy=\"{y:.2}\" r=\"{radius:.2}\" fill=\"{style}\" stroke=\"{GREY}\"/>\n"
        )
    }

    fn legend(&self, sheet: &mut Sheet) {
        let row = |y: f64, colour: &str, style: &str| {
            line([MARGIN, y, MARGIN + 26.0, y], &format!("stroke=\"{colour}\" {style}"))
        };
        sheet.item(|y| row(y, colour(0), WAY), "from r1 to r2, in the direction of the arrowhead");
        if self.flights.iter().any(|flown| !flown.rest.is_empty()) {
            sheet.item(
                |y| row(y, colour(0), ELLIPSE),
                "the rest of the ellipse, flown once per whole revolution",
            );
        }
        if self.warnings().next().is_some() {
            sheet.item(|y| row(y, RED, WAY), "below the surface");
        }
    }
}

/// Draws the way of a transfer in its colour, and in the colour of warnings where it is below the surface.
fn ways(i: usize, class: &str, steps: &[Step], style: &str, view: &View, room: &mut Room) -> String {
    let mut drawn = String::new();
    for (below, points) in parts(steps) {
        let points: Vec<Point> = points.into_iter().map(|place| view.at(place)).collect();
        points.windows(2).for_each(|pair| room.take_line(pair[0], pair[1]));
        let (class, colour) = if below { ("below", RED) } else { (class, colour(i)) };
        drawn += &polyline(&points, &format!("class=\"{class}\" stroke=\"{colour}\" {style}"));
    }
    drawn
}
