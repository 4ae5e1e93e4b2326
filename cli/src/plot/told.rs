//! The words of the picture: the question, the brackets or the refusal, and a description for those who do not see the picture.

use super::curve::Curve;
use super::measure::NO_BREAK;
use super::voids;
use crate::orbit::{end, kind, x_of};
use crate::show::refused;
use crate::wire::{Entry, Outcome, Question, Refusal};
use crate::words::{asked, number};

/// Returns the question in words.
pub fn question(question: &Question) -> String {
    whole(&asked(question))
}

/// Returns the outcome in words: an item for each bracket, or the refusal.
pub fn outcome(question: &Question, outcome: &Outcome) -> Vec<String> {
    match outcome {
        Outcome::Refused(refusal) => refused(question, *refusal),
        Outcome::Answered(entries) => {
            entries.iter().enumerate().map(|(i, entry)| bracket(i, entry)).collect()
        }
    }
}

/// Returns the meaning of a refusal, and what to do about it.
fn refused(question: &Question, refusal: Refusal) -> Vec<String> {
    let (number, words) = (refusal.number, refused::words(refusal, Some(question)));
    vec![format!("refused {number}: {words}"), refused::advice(number, Some(question))]
}

fn bracket(i: usize, entry: &Entry) -> String {
    whole(&[
        format!("{}: {}", i + 1, kind(entry)),
        format!("x = {:.12}", x_of(entry.chosen())),
        format!("{} end", end(entry)),
        format!("h = {}", entry.halvings),
        format!("k from {} to {}", entry.low, entry.low + entry.width()),
    ])
}

/// Joins phrases with commas. A line is broken only after a comma, unless a phrase is longer than a line.
fn whole(phrases: &[String]) -> String {
    let whole: Vec<String> =
        phrases.iter().map(|phrase| phrase.replace(' ', &NO_BREAK.to_string())).collect();
    whole.join(", ")
}

/// Returns the question, the graph and the outcome in words.
pub fn description(question: &Question, outcome: &Outcome, curve: Option<&Curve>) -> String {
    let mut said = format!("Asked: {}. ", asked(question).join(", "));
    if let Some(curve) = curve {
        let (stations, counts, wanted) = (curve.stations.len(), curve.voids(), number(curve.wanted));
        let void: usize = counts.values().sum();
        said += &format!("The normalised time at {stations} stations, {void} of them void, over x, ");
        said += &format!("and the wanted time T* = {wanted}. ");
        for (reason, count) in counts {
            said += &format!("Void stations: {}. ", voids::words(reason, count));
        }
    }
    said + &self::outcome(question, outcome).join("; ") + "."
}
