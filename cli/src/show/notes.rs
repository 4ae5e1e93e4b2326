//! What has to be known of the columns of the table.

use super::view::View;
use crate::words::wrapped;

/// Returns what has to be known of the columns, after the last row.
pub fn notes(with_questions: bool, view: &View) -> String {
    let notes: &[&str] = if with_questions {
        &[
            "perigee and apogee are distances from the centre. dv1 and dv2 are the velocity changes from and to a \
             circular orbit through r1 and r2 in the transfer's own plane and direction: a circular orbit in another \
             plane or direction needs a larger change. miss is the distance from r2 at arrival, by propagation. All this, \
             the inclination and the warnings are computed for this table: they are tested, not proved.",
        ]
    } else {
        &["perigee, apogee, inclination, velocity changes, the miss at r2 and warnings need the questions: \
           --questions FILE"]
    };
    let lines = notes.iter().flat_map(|note| wrapped(note, view.width(), ""));
    lines.map(|line| line + "\n").collect()
}
