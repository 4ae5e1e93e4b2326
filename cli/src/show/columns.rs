//! The columns of a transfer in the table, and its cells.

use super::facts::Facts;
use super::item::Transfer;
use super::layout::{number, words, Column};
use super::numbers::{distance, miss, speed};
use crate::orbit::kind;
use crate::vectors::size;

/// Returns the columns of a transfer.
pub fn columns(with_questions: bool) -> Vec<Column> {
    let mut columns = vec![words("transfer", 8), words("orbit", 9)];
    if with_questions {
        columns.extend([number("perigee km", 10), number("apogee km", 10), number("incl deg", 8)]);
    }
    columns.extend([number("v1 km/s", 8), number("v2 km/s", 8)]);
    if with_questions {
        columns.extend([number("dv1 km/s", 8), number("dv2 km/s", 8), number("miss m", 7)]);
    }
    columns
}

/// Returns the cells of a transfer in these columns.
pub fn cells(transfer: &Transfer) -> Vec<String> {
    let Transfer { entry, number, count, facts } = *transfer;
    let mut cells = vec![format!("{number} of {count}"), kind(entry).into()];
    if let Some(Facts { arc, .. }) = facts {
        cells.extend([distance(arc.perigee), arc.apogee.map_or("-".into(), distance)]);
        cells.push(format!("{:.3}", arc.inclination));
    }
    cells.extend([entry.v1, entry.v2].map(|v| speed(size(v))));
    if let Some(facts) = facts {
        cells.extend(facts.changes.map(speed));
        cells.push(miss(facts.miss));
    }
    cells
}
