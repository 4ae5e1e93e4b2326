//! The whole picture: the question, the graph, its legend, the brackets or the refusal in words, and the transfers in their plane.

use super::axes::Axes;
use super::curve::Curve;
use super::graph::{graph, CURVE, WANTED};
use super::measure::NO_BREAK;
use super::sheet::{Sheet, MARGIN};
use super::svg::{circle, line, rect};
use super::told;
use super::transfer::Transfers;
use super::voids;
use crate::wire::{Outcome, Question};
use crate::words::number;

/// Draws a question. `radius` is the radius of the body in km if the user gives one.
pub fn page(question: &Question, outcome: &Outcome, curve: Option<&Curve>, radius: Option<f64>) -> String {
    let mut sheet = Sheet::new();
    let title = format!("Job{NO_BREAK}{}, revision{NO_BREAK}{}", question.job, question.revision);
    let told = told::outcome(question, outcome);
    let transfers = Transfers::of(question, outcome, radius);
    sheet.title(&title);
    sheet.say(&told::question(question));
    if let Some(curve) = curve {
        sheet.y += 36.0;
        let axes = Axes::of(curve, sheet.y);
        sheet.drawn += &graph(curve, &axes, question.time, &told);
        sheet.y = axes.bottom() + 44.0;
        legend(&mut sheet, curve);
    }
    sheet.y += 6.0;
    told.iter().for_each(|words| sheet.say(words));
    let mut description = told::description(question, outcome, curve);
    if let Some(transfers) = &transfers {
        transfers.draw(&mut sheet);
        description += &format!(" {}.", transfers.words().join(". "));
    }
    let what = match (curve, &transfers) {
        (None, _) => "refused",
        (_, None) => "the time over x",
        (_, Some(_)) => "the time over x, and the transfers",
    };
    let name = format!("job-{}-{}", question.job, question.revision);
    sheet.svg(&name, &format!("{title}: {what}"), &description)
}

fn legend(sheet: &mut Sheet, curve: &Curve) {
    let (stations, counts) = (curve.stations.len(), curve.voids());
    let none = if counts.is_empty() { ", none of them void" } else { "" };
    let row = |y: f64, style: &str| line([MARGIN, y, MARGIN + 26.0, y], style);
    sheet.item(|y| row(y, CURVE), &format!("time at {stations} stations{none}"));
    sheet.item(|y| row(y, WANTED), &format!("wanted time T* = {}", number(curve.wanted)));
    if !curve.chosen.is_empty() {
        sheet.item(|y| circle(MARGIN + 13.0, y), "chosen end of a bracket");
    }
    for (reason, count) in counts {
        let (style, words) = (voids::style(reason), voids::words(reason, count));
        sheet.item(|y| rect([MARGIN, y - 6.0, 26.0, 12.0], &style), &format!("void stations: {words}"));
    }
}

#[cfg(test)]
mod layout;
#[cfg(test)]
mod tests;
