//! The scale of the picture: one for everything, so that the body, both positions and all that is flown fit.

use crate::plot::room::{Area, Point};
use crate::plot::sheet::{MARGIN, WIDTH};
use crate::plot::ticks::label;

/// The space around what is drawn, for labels, and the greatest height without it.
const EDGE: f64 = 26.0;
const HEIGHT: f64 = 300.0;
/// Distances above this are drawn as if they were this, so that their differences are finite.
const MOST: f64 = 1e300;

pub struct View {
    /// Units of the picture per km.
    pub scale: f64,
    /// The position of the centre in the picture.
    pub centre: Point,
    pub frame: Area,
}

impl View {
    /// Returns the view of these points and of a body with this radius around the centre, below a height of the page.
    pub fn of(points: impl Iterator<Item = Point>, radius: f64, top: f64) -> View {
        let radius = radius.min(MOST);
        let mut area = [-radius, -radius, radius, radius];
        for (x, y) in points {
            area = [area[0].min(x), area[1].min(y), area[2].max(x), area[3].max(y)]
                .map(|edge| edge.clamp(-MOST, MOST));
        }
        let [left, low, right, high] = area;
        let width = WIDTH - 2.0 * MARGIN;
        let scale = ((width - 2.0 * EDGE) / (right - left)).min(HEIGHT / (high - low));
        let height = scale * (high - low) + 2.0 * EDGE;
        let centre = (MARGIN + 0.5 * (width - scale * (left + right)), top + EDGE + scale * high);
        View { scale, centre, frame: [MARGIN, top, MARGIN + width, top + height] }
    }

    /// Returns where a point of the plane is in the picture. Seen from the side from which the motion is counter-clockwise, the second
    /// coordinate goes up.
    pub fn at(&self, (x, y): Point) -> Point {
        (self.centre.0 + self.scale * x, self.centre.1 - self.scale * y)
    }

    /// Returns the length of the scale bar in units of the picture and its label: 1, 2 or 5 times a power of ten km.
    pub fn bar(&self) -> (f64, String) {
        let most = (100.0 / self.scale).log10();
        let exponent = most.floor();
        let digit = match most - exponent {
            rest if rest >= 5f64.log10() => 5,
            rest if rest >= 2f64.log10() => 2,
            _ => 1,
        };
        let length = f64::from(digit) * 10f64.powf(exponent) * self.scale;
        let exponent = exponent as i32;
        let words = match exponent {
            4..=6 => format!("{} km", i64::from(digit) * 10i64.pow(exponent as u32)),
            _ => format!("{} km", label(digit, exponent)),
        };
        (length, words)
    }
}

#[cfg(test)]
mod tests {
    use super::*;

    #[test]
    fn everything_fits() {
        for points in [
            vec![(7_000.0, 0.0), (0.0, 42_164.0)],
            vec![(1.0, 0.0), (1.0, 1e-6)],
            vec![(1e12, 0.0), (-1e12, 1.0)],
            vec![(f64::MAX, -f64::MAX)],
        ] {
            for radius in [0.0, 1e-300, 6_378.0, 1e9, f64::MAX] {
                let view = View::of(points.iter().copied(), radius, 500.0);
                let [left, top, right, bottom] = view.frame;
                for (x, y) in points.iter().map(|point| view.at((point.0.min(MOST), point.1.max(-MOST)))) {
                    assert!(left + 25.0 < x && x < right - 25.0 && top + 25.0 < y && y < bottom - 25.0);
                }
                let (length, words) = view.bar();
                assert!((35.0..100.1).contains(&length) && bottom - top < 353.0, "{length} {words}");
            }
        }
    }

    #[test]
    fn the_bar_is_round() {
        let bar = |size: f64| View::of([(size, 0.0)].into_iter(), size, 0.0).bar().1;
        let found = [1.0, 7e3, 42e3, 400e3, 2e8, 2e12].map(bar);
        assert_eq!(found, ["0.5 km", "2000 km", "20000 km", "200000 km", "10⁸ km", "10¹² km"]);
    }
}
