//! Void stations in the picture: bands over the height of the graph, in a colour for each reason.

use super::axes::{Axes, HEIGHT};
use super::svg::rect;
use super::trace::VoidColumns;
use crate::reason::Reason;

/// The colours of the reasons 1 to 4. The last colour is for every other number.
const FILLS: [&str; 5] = ["#efb04a", "#c79fe0", "#98cf86", "#86c5ea", "#b8b8b8"];

/// Returns the style of the void stations with this reason, in the graph and in the legend.
pub fn style(reason: Reason) -> String {
    let at = usize::from(reason.0.wrapping_sub(1)).min(FILLS.len() - 1);
    format!("fill=\"{}\"", FILLS[at])
}

/// Returns the words for a number of void stations with this reason.
pub fn words(reason: Reason, count: usize) -> String {
    format!("{count}, reason {}: {}", reason.0, reason.words())
}

/// Draws the bands of columns with void stations. If they have more than one reason, the height is divided among the reasons.
pub fn bands(columns: &VoidColumns, axes: &Axes) -> String {
    let height = HEIGHT / columns.reasons.len() as f64;
    let band = |(i, reason): (usize, &Reason)| {
        // A band is one unit wider than its columns, so that a single void station can be seen.
        let (left, width) = (columns.from - 0.5, columns.to - columns.from + 1.0);
        let area = [left, axes.top + height * i as f64, width, height];
        rect(area, &format!("class=\"void\" {}", style(*reason)))
    };
    columns.reasons.iter().enumerate().map(band).collect()
}

#[cfg(test)]
mod tests {
    use super::*;

    #[test]
    fn each_reason_has_its_colour() {
        let styles: std::collections::BTreeSet<String> =
            (0..=4).map(|number| style(Reason(number))).collect();
        assert_eq!(styles.len(), 5);
        for number in [5, u16::MAX] {
            assert_eq!(style(Reason(number)), style(Reason(0)));
        }
    }

    #[test]
    fn every_reason_of_a_column_is_seen() {
        let axes = Axes { top: 100.0, right: 4.0, levels: (0.0, 1.0) };
        let columns = |reasons: &[u16]| VoidColumns {
            from: 60.0,
            to: 61.0,
            reasons: reasons.iter().map(|number| Reason(*number)).collect(),
        };
        let one = format!(
            "<rect x=\"59.50\" y=\"100.00\" width=\"2.00\" height=\"270.00\" class=\"void\" {}/>\n",
            style(Reason(3))
        );
        assert_eq!(bands(&columns(&[3]), &axes), one);
        let drawn = bands(&columns(&[4, 1, 7]), &axes);
        let lines: Vec<&str> = drawn.lines().collect();
        assert_eq!(lines.len(), 3);
        for (line, (reason, y)) in lines.iter().zip([(1, "100.00"), (4, "190.00"), (7, "280.00")]) {
            assert!(line.contains(&style(Reason(reason))) && line.contains(&format!("y=\"{y}\"")), "{line}");
            assert!(line.contains("height=\"90.00\""), "{line}");
        }
    }
}
