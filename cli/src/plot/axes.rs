//! The positions of places and times in the picture. The x axis is linear. The time axis is logarithmic, since times range over many
//! decades.

use super::curve::Curve;

/// The left and right edge of the graph's frame and its height, in units of the picture. Both sides have space for a label.
pub const LEFT: f64 = 56.0;
pub const RIGHT: f64 = 344.0;
pub const HEIGHT: f64 = 270.0;

pub struct Axes {
    pub top: f64,
    /// x at the right edge of the frame. At the left edge x is -1.
    pub right: f64,
    /// The common logarithms of the times at the lower and the upper edge of the frame.
    pub levels: (f64, f64),
}

impl Axes {
    pub fn of(curve: &Curve, top: f64) -> Axes {
        let last = curve.stations.last().map_or(1.0, |(x, _)| *x);
        Axes { top, right: if last > 1.0 { 4.0 } else { 1.0 }, levels: levels(curve) }
    }

    pub fn bottom(&self) -> f64 {
        self.top + HEIGHT
    }

    pub fn across(&self, x: f64) -> f64 {
        LEFT + (x + 1.0) / (self.right + 1.0) * (RIGHT - LEFT)
    }

    pub fn down(&self, time: f64) -> f64 {
        self.down_at(level(time))
    }

    pub fn down_at(&self, level: f64) -> f64 {
        let (low, high) = self.levels;
        self.top + (high - level) / (high - low) * HEIGHT
    }
}

/// Returns the common logarithm of a time. A time that is not positive is treated as the smallest positive normal number, so it is
/// far below the frame.
fn level(time: f64) -> f64 {
    time.max(f64::MIN_POSITIVE).log10()
}

/// Returns the range of times that the frame shows, as logarithms: the wanted time, the least time and at least half of the stations
/// with a positive time, with a margin. The margin is larger at the top, where the curve goes on, but the frame ends at most 0.4
/// decades above the wanted time or the greatest time of a station, whichever is greater.
fn levels(curve: &Curve) -> (f64, f64) {
    let wanted = level(curve.wanted);
    let mut times: Vec<f64> = curve.stations.iter().filter_map(|(_, time)| time.ok()).collect();
    times.retain(|time| *time > 0.0);
    times.sort_by(f64::total_cmp);
    let at = |i: usize| times.get(i).map_or(wanted, |time| level(*time));
    let low = wanted.min(at(0));
    let high = wanted.max(at(times.len() / 2));
    let most = wanted.max(at(times.len().saturating_sub(1)));
    let span = high - low;
    (low - (0.1 * span).max(0.15), (high + (0.4 * span).max(0.4)).min(most + 0.4))
}

#[cfg(test)]
mod tests {
    use super::*;

    fn curve(wanted: f64, times: &[f64]) -> Curve {
        let stations = times.iter().enumerate().map(|(i, time)| (i as f64 / 1e3, Ok(*time))).collect();
        Curve { wanted, stations, chosen: Vec::new() }
    }

    #[test]
    fn the_frame_holds_what_matters() {
        let times = [1e5, 300.0, 10.0, 4.0, 3.0, 5.0, 20.0, 2e4];
        for wanted in [1e-19, 0.5, 3.0, 3.1, 8.0, 1e4, 1e9] {
            let axes = Axes::of(&curve(wanted, &times), 100.0);
            for time in [wanted, 3.0, 20.0] {
                assert!(axes.down(time) > 100.0 && axes.down(time) < axes.bottom(), "{wanted}, {time}");
            }
        }
    }

    #[test]
    fn nothing_to_see_is_left_out() {
        assert!(levels(&curve(1e4, &[2.0, 1e4, 2e4])).1 < 5.0);
        let (low, high) = levels(&curve(100.0, &[]));
        assert!(low < 2.0 && 2.0 < high && high.is_finite());
        assert!(levels(&curve(1.0, &[0.0, -1.0, 1.0])).0 > -1.0);
    }
}
