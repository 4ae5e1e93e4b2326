//! The lines below the rows of a table: how full the board is, what the table does not say and, if something is missing, what.

use super::posting::Posting;
use super::table::{Look, INDENT, NARROW};
use crate::terminal::Mark;
use crate::wire::slots::{filled, held, Held, SLOTS};
use crate::wire::Outcome;
use crate::words::wrapped;

const NO_SURFACE: &str =
    "a board does not keep questions, so this table cannot warn of transfers below a surface: \
    use 'lambert-cli show --questions'";
const NO_MEANING: &str = "--explain says what a refusal means";

pub fn lines(posting: &Posting, look: &Look) -> String {
    let [answered, refused, conflicts] = counts(&posting.board);
    let all = answered + refused + conflicts;
    let mut lines = vec![broken(
        &format!(
            "{all} of {SLOTS} slots filled: {answered} answered, {refused} refused, {conflicts} in conflict"
        ),
        look,
    )];
    if has_transfer(posting) {
        lines.push(broken(NO_SURFACE, look));
    }
    if refused > 0 && !look.explain {
        lines.push(broken(NO_MEANING, look));
    }
    let missing = posting.tally.incomplete();
    lines.extend(missing.map(|words| look.colour.paint(Mark::Warning, &broken(&words, look))));
    lines.join("\n") + "\n"
}

/// Returns how many slots hold an answer, a refusal and a conflict.
fn counts(board: &[u8]) -> [usize; 3] {
    let mut counts = [0; 3];
    filled(board).for_each(|slot| match slot.held {
        Held::Outcome(Outcome::Answered(_)) | Held::Foreign(..) => counts[0] += 1,
        Held::Outcome(Outcome::Refused(_)) => counts[1] += 1,
        Held::Conflict => counts[2] += 1,
    });
    counts
}

/// Whether the rows give a transfer, that of an answer or that of a record in conflict.
fn has_transfer(posting: &Posting) -> bool {
    let answered = |held: &Held| matches!(held, Held::Outcome(Outcome::Answered(_)) | Held::Foreign(..));
    filled(&posting.board).any(|slot| {
        let records = posting.origins.of(slot.job).map(|origin| &origin.records[..]).unwrap_or_default();
        answered(&slot.held) || records.iter().any(|kept| answered(&held(&kept.bytes)))
    })
}

/// Breaks a sentence into lines, if a width is given.
fn broken(words: &str, look: &Look) -> String {
    wrapped(words, look.columns.map_or(usize::MAX, |columns| columns.max(NARROW)), INDENT).join("\n")
}

#[cfg(test)]
mod tests;
