//! Places for labels where nothing else is drawn.

use super::measure::Font;
use std::f64::consts::TAU;

/// The left, upper, right and lower edge of an area.
pub type Area = [f64; 4];
pub type Point = (f64, f64);

pub struct Room {
    /// Labels stay within these bounds.
    bounds: Area,
    taken: Vec<Area>,
}

impl Room {
    pub fn new(bounds: Area) -> Room {
        Room { bounds, taken: Vec::new() }
    }

    pub fn take(&mut self, area: Area) {
        self.taken.push(area);
    }

    /// Takes the line from one point to another, which is short or nearly level or upright.
    pub fn take_line(&mut self, a: Point, b: Point) {
        self.take([a.0.min(b.0) - 1.0, a.1.min(b.1) - 1.0, a.0.max(b.0) + 1.0, a.1.max(b.1) + 1.0]);
    }

    /// Finds a place for a label near one of some points, in the direction of this angle if it is free there, and takes it. The angle
    /// counts from the right and clockwise. If no place is free, the one that covers least is taken. Returns where the middle of the
    /// label's baseline is.
    pub fn label(&mut self, words: &str, font: Font, points: &[Point], toward: f64, gap: f64) -> Point {
        let (half, rise) = (0.5 * font.width(words), 0.38 * font.size);
        let mut best = (f64::INFINITY, (0.0, 0.0));
        for (i, (x, y)) in points.iter().flat_map(|point| (0..48).map(move |i| (i, *point))) {
            // The angles deviate more and more from the wanted one, then the same angles are tried farther away.
            let (side, far) = (f64::from((i % 16 + 1) / 2) * TAU / 16.0, f64::from(i / 16));
            let (sine, cosine) = (toward + if i % 2 == 0 { side } else { -side }).sin_cos();
            let reach = gap * (1.0 + 0.8 * far);
            let (across, down) = (x + cosine * (reach + half), y + sine * (reach + rise));
            let cost = self.cost([across - half, down - rise, across + half, down + rise]);
            if cost < best.0 {
                best = (cost, (across, down));
            }
        }
        let (across, down) = best.1;
        self.take([across - half, down - rise, across + half, down + rise]);
        (across, down + 0.36 * font.size)
    }

    /// Returns how much of an area is taken. An area that is partly out of bounds costs more than any area within bounds.
    fn cost(&self, area: Area) -> f64 {
        let whole = (area[2] - area[0]) * (area[3] - area[1]);
        let outside = whole - shared(area, self.bounds);
        1e6 * outside.max(0.0) + self.taken.iter().map(|taken| shared(area, *taken)).sum::<f64>()
    }
}

/// Returns the size of what two areas share.
pub fn shared(a: Area, b: Area) -> f64 {
    let across = (a[2].min(b[2]) - a[0].max(b[0])).max(0.0);
    across * (a[3].min(b[3]) - a[1].max(b[1])).max(0.0)
}

#[cfg(test)]
mod tests {
    use super::*;
    use crate::plot::measure::BOLD;

    #[test]
    fn labels_keep_off_what_is_taken() {
        let mut room = Room::new([0.0, 0.0, 200.0, 200.0]);
        assert!(room.label("1", BOLD, &[(100.0, 100.0)], 0.0, 5.0).0 > 105.0);
        assert!(
            room.label("2", BOLD, &[(100.0, 100.0)], 0.0, 5.0)
                != room.label("3", BOLD, &[(100.0, 100.0)], 0.0, 5.0)
        );
        room.take([100.0, 0.0, 200.0, 200.0]);
        assert!(room.label("4", BOLD, &[(100.0, 50.0)], 0.0, 5.0).0 < 100.0);
        let (across, down) = room.label("5", BOLD, &[(2.0, 2.0)], TAU / 2.0, 5.0);
        assert!(across > 2.0 && down > 2.0);
    }

    #[test]
    fn a_full_room_still_has_a_place() {
        let mut room = Room::new([0.0, 0.0, 50.0, 50.0]);
        room.take([0.0, 0.0, 50.0, 50.0]);
        let (across, down) = room.label("1", BOLD, &[(25.0, 25.0)], 0.0, 5.0);
        assert!((0.0..50.0).contains(&across) && (0.0..50.0).contains(&down));
    }
}
