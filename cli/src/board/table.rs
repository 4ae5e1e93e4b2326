//! A board as a table: rows for each job, and the lines below the rows.

use super::conflict::{impossible, sentences, CONFLICT};
use super::foot;
use super::posting::Posting;
use crate::orbit::{kind, x_of};
use crate::refusal;
use crate::show::layout::{number, words, Layout};
use crate::terminal::{Colour, Mark};
use crate::vectors::size;
use crate::wire::slots::{filled, Filled, Held};
use crate::wire::{Entry, Outcome};
use crate::words::component;
use crate::words::wrapped;

/// The width at which the full meaning of a refusal is broken into lines if no width is given. Other lines are then not broken.
const WIDE: usize = 120;
/// The least width at which words are broken into lines.
pub const NARROW: usize = 25;
pub const INDENT: &str = "  ";
/// What is between two columns.
const GAP: &str = "  ";

pub struct Look {
    pub columns: Option<usize>,
    pub colour: Colour,
    /// Whether the meaning of each refusal is given in full.
    pub explain: bool,
}

/// A line of a row, and how it is meant.
type Line = (Option<Mark>, String);

pub fn table(posting: &Posting, look: &Look) -> String {
    let layout = layout(look.columns);
    let rows =
        filled(&posting.board).map(|slot| row(&slot, &lines(&slot, posting, look, &layout), &layout, look));
    layout.head() + &rows.collect::<String>() + &foot::lines(posting, look)
}

/// Returns the columns. Together they are 80 wide. On a narrower output the row of a transfer has more lines.
fn layout(columns: Option<usize>) -> Layout {
    let mut all = vec![number("job", 10), number("revision", 8)];
    all.extend([words("transfer", 8), words("orbit", 9), number("x of chosen end", 15)]);
    all.extend([number("v1 km/s", 9), number("v2 km/s", 9)]);
    Layout::new(all, 2, columns)
}

/// Returns the text of a row. Its first line begins with the job and the revision.
fn row(slot: &Filled, lines: &[Line], layout: &Layout, look: &Look) -> String {
    let mut text = String::new();
    let names = [slot.job, slot.revision].map(|number| number.to_string());
    let mut before = layout.row(&names).trim_end().to_string() + GAP;
    for (mark, line) in lines {
        let line = format!("{before}{line}");
        text += &mark.map_or_else(|| line.clone(), |mark| look.colour.paint(mark, &line));
        text += "\n";
        before = " ".repeat(layout.indent());
    }
    text
}

fn lines(slot: &Filled, posting: &Posting, look: &Look, layout: &Layout) -> Vec<Line> {
    let fit = |mark, words: &str, columns| marked(mark, words, columns, layout.indent());
    let say = |mark, words: &str| fit(mark, words, look.columns);
    match &slot.held {
        Held::Conflict => {
            let origin = posting.origins.of(slot.job);
            let said = origin.map(|origin| sentences(origin, &posting.names)).unwrap_or_default();
            let mut lines = say(Some(Mark::Warning), &format!("CONFLICT: {CONFLICT}"));
            lines.extend(said.iter().flat_map(|words| say(None, words)));
            lines
        }
        Held::Outcome(Outcome::Refused(refusal)) => {
            let line = format!("refused {}: {}", refusal.number, refusal::short(*refusal));
            let mut lines = say(Some(Mark::Refusal), &line);
            if look.explain {
                lines.extend(fit(None, &refusal::words(*refusal), look.columns.or(Some(WIDE))));
            }
            lines
        }
        Held::Outcome(Outcome::Answered(entries)) => {
            let which = |i: usize| format!("{} of {}", i + 1, entries.len());
            entries.iter().enumerate().flat_map(|(i, entry)| transfer(entry, which(i), layout)).collect()
        }
        Held::Foreign(entries, words) => say(Some(Mark::Warning), &impossible(*entries, words)),
    }
}

/// Breaks words into lines that fit beside the job and the revision, if the number of columns is given.
fn marked(mark: Option<Mark>, words: &str, columns: Option<usize>, before: usize) -> Vec<Line> {
    let width = columns.map_or(usize::MAX, |columns| columns.saturating_sub(before).max(NARROW));
    wrapped(words, width, INDENT).into_iter().map(|line| (mark, line)).collect()
}

/// Returns the lines of a transfer, with the sizes of its velocities. They begin after the columns of the job and the revision.
fn transfer(entry: &Entry, which: String, layout: &Layout) -> Vec<Line> {
    let [v1, v2] = [entry.v1, entry.v2].map(|v| component(size(v), size(v)));
    let x = format!("{:.12}", x_of(entry.chosen()));
    let none = String::new;
    let text = layout.row(&[none(), none(), which, kind(entry).into(), x, v1, v2]);
    text.lines().map(|line| (None, line[layout.indent()..].into())).collect()
}

#[cfg(test)]
mod tests;
