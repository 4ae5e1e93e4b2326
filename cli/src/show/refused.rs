//! A refusal in words, with what its question tells about it.

use crate::refusal::{self, nothing_found};
use crate::wire::{Question, Refusal};

const NOTHING_FOUND: u16 = 11;

/// Returns the meaning of a refusal as one sentence.
pub fn short(refusal: Refusal, question: Option<&Question>) -> String {
    let own = question.filter(|_| refusal.number == NOTHING_FOUND).and_then(nothing_found::short);
    own.unwrap_or_else(|| refusal::short(refusal))
}

/// Returns the meaning of a refusal in full.
pub fn words(refusal: Refusal, question: Option<&Question>) -> String {
    let own = question.filter(|_| refusal.number == NOTHING_FOUND).and_then(nothing_found::words);
    let words = refusal::words(refusal);
    own.map_or(words.clone(), |own| format!("{words}. {own}"))
}

/// Returns what to do about a refusal.
pub fn advice(number: u16, question: Option<&Question>) -> String {
    let own = question.filter(|_| number == NOTHING_FOUND).and_then(nothing_found::advice);
    format!("What to do: {}.", own.unwrap_or_else(|| refusal::advice(number).into()))
}
