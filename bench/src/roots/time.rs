//! Times square roots.

use super::{hardware, hardware_four, ordinary, ordinary_fours, positive, proved_four};
use crate::{proved, report, timing};

/// Times the square root. Returns the nanoseconds of a proved root in a row.
pub fn time() -> f64 {
    let show = |what: &str, count: usize, times| report(what, count, times, ("ns", "hardware"));
    let (positive, ordinary) = (positive(), ordinary());
    let alone = timing::nanoseconds(&ordinary, [&proved::root_bits, &hardware]);
    show("square root", ordinary.len(), alone);
    let difficult = timing::nanoseconds(&positive, [&proved::root_bits, &hardware]);
    show("square root, operands of the test vectors", positive.len(), difficult);
    let in_a_row = timing::nanoseconds_in_a_row(&ordinary, [&proved::root_bits, &hardware]);
    show("square root, in a row", ordinary.len(), in_a_row);
    let fours = timing::nanoseconds(&ordinary_fours(), [&proved_four, &hardware_four]).map(|t| t / 4.0);
    show("square root, four at a time, the time of one", ordinary.len(), fours);
    println!("  ratio      {:8.1} to one root of the hardware at a time", fours[0] / alone[1]);
    in_a_row[0]
}
