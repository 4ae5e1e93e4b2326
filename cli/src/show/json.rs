//! A record as a JSON object on one line.

use super::circular::NAMES;
use super::facts::Facts;
use super::item::{Item, Transfer};
use super::pairs::Asked;
use super::refused;
use crate::json::{array, number, number_or_null, object, string};
use crate::orbit::{end, kind, x_of};
use crate::refusal::void_station;
use crate::vectors::size;
use crate::wire::{Outcome, Question};

pub fn item(item: &Item) -> String {
    let record = item.record;
    let mut fields = vec![("job", record.job.to_string()), ("revision", record.revision.to_string())];
    match record.outcome {
        Outcome::Refused(refusal) => {
            fields.extend([
                ("outcome", string("refused")),
                ("number", refusal.number.to_string()),
                ("meaning", string(&refused::words(refusal, item.question()))),
            ]);
            fields.extend(refusal.void.map(|void| (void_station::NAME, void_station::object(void))));
        }
        Outcome::Answered(_) => {
            fields.extend([
                ("outcome", string("answered")),
                ("transfers", array(item.transfers().map(|one| transfer(&one)))),
            ]);
            fields.extend(item.note().map(|note| ("note", string(note))));
        }
    }
    match item.asked {
        Asked::Unknown => {}
        Asked::NoQuestion(_) => fields.push(("question", "null".into())),
        Asked::Known(question) => fields.push(("question", question_of(question))),
    }
    object(fields) + "\n"
}

/// Returns the last line of an output that a fault has cut short.
pub fn incomplete(why: &str) -> String {
    object([("outcome", string("incomplete")), ("meaning", string(why))]) + "\n"
}

fn transfer(transfer: &Transfer) -> String {
    let entry = transfer.entry;
    let (k, width) = (entry.chosen(), entry.width());
    let mut fields = vec![
        ("orbit", string(kind(entry))),
        ("x", number(x_of(k))),
        ("k", k.to_string()),
        ("end", string(end(entry))),
        ("k_low", entry.low.to_string()),
        ("k_high", (entry.low + width).to_string()),
        ("halvings", entry.halvings.to_string()),
        ("width_k", width.to_string()),
        ("width_x", number(x_of(width))),
        ("v1_km_s", vector(entry.v1)),
        ("v1_size_km_s", number(size(entry.v1))),
        ("v2_km_s", vector(entry.v2)),
        ("v2_size_km_s", number(size(entry.v2))),
    ];
    fields.extend(transfer.facts.map(|facts| ("tested_not_proved", tested(facts))));
    object(fields)
}

/// Returns what is computed for display: it is tested, not proved.
fn tested(facts: &Facts) -> String {
    let arc = &facts.arc;
    let mut fields: Vec<(&str, String)> = NAMES.into_iter().zip(facts.changes.map(number)).collect();
    fields.extend([
        ("perigee_km", number(arc.perigee)),
        ("apogee_km", number_or_null(arc.apogee)),
        ("eccentricity", number(arc.eccentricity)),
        ("inclination_deg", number(arc.inclination)),
        ("lowest_km", number(arc.lowest())),
        ("radius_km", number_or_null(facts.surface.map(|surface| surface.radius))),
        ("below_surface", facts.surface.map_or("null".into(), |_| facts.passed().is_some().to_string())),
        ("miss_r2_m", number_or_null(facts.miss)),
    ]);
    object(fields)
}

fn question_of(question: &Question) -> String {
    object([
        ("r1_km", vector(question.r1)),
        ("r2_km", vector(question.r2)),
        ("mu_km3_s2", number(question.mu)),
        ("time_s", number(question.time)),
        ("revolutions", question.revolutions.to_string()),
        ("way", string(question.way())),
    ])
}

fn vector(components: [f64; 3]) -> String {
    array(components.map(number))
}
