//! Records as CSV: a line for each transfer or refusal. Fields that do not apply are empty.

use super::circular::NAMES;
use super::facts::Facts;
use super::item::{Item, Transfer};
use super::pairs::Asked;
use super::refused;
use crate::csv::line;
use crate::orbit::{end, kind, x_of};
use crate::refusal::void_station;
use crate::vectors::size;
use crate::wire::{Outcome, Question};

const RECORD: &str = "job,revision,outcome,number,meaning,transfer,transfers";
const TRANSFER: &str = "orbit,x,k,end,k_low,k_high,halvings,width_k,width_x,\
                        v1_x_km_s,v1_y_km_s,v1_z_km_s,v1_size_km_s,v2_x_km_s,v2_y_km_s,v2_z_km_s,v2_size_km_s";
const QUESTION: &str = "r1_x_km,r1_y_km,r1_z_km,r2_x_km,r2_y_km,r2_z_km,mu_km3_s2,time_s,revolutions,way";
/// What is computed for display, beside the velocity changes: it is tested, not proved.
const TESTED: &str =
    "perigee_km,apogee_km,eccentricity,inclination_deg,lowest_km,radius_km,below_surface,miss_r2_m";

pub fn head(with_questions: bool) -> String {
    let more =
        if with_questions { format!(",{QUESTION},{},{TESTED}", NAMES.join(",")) } else { String::new() };
    format!("{RECORD},{TRANSFER}{more},{}\n", void_station::COLUMNS)
}

pub fn item(item: &Item) -> String {
    let record = item.record;
    let own = [record.job.to_string(), record.revision.to_string()];
    match record.outcome {
        Outcome::Refused(refusal) => {
            let (number, meaning) = (refusal.number.to_string(), refused::words(refusal, item.question()));
            let said = ["refused".into(), number, meaning, String::new(), String::new()];
            let (asked, void) = (asked_fields(item.asked, None), void_station::fields(refusal.void));
            line(&[&own[..], &said, &blanks(TRANSFER), &asked, &void].concat())
        }
        Outcome::Answered(_) => {
            let lines = item.transfers().map(|transfer| {
                let (number, count) = (transfer.number.to_string(), transfer.count.to_string());
                let note = item.note().unwrap_or_default().into();
                let said = ["answered".into(), String::new(), note, number, count];
                let (asked, void) = (asked_fields(item.asked, transfer.facts), void_station::fields(None));
                line(&[&own[..], &said, &transfer_fields(&transfer), &asked, &void].concat())
            });
            lines.collect()
        }
    }
}

/// Returns the last line of an output that a fault has cut short.
pub fn incomplete(why: &str, with_questions: bool) -> String {
    let said = ["", "", "incomplete", "", why].map(String::from);
    let mut fields = Vec::from(said);
    fields.resize(head(with_questions).split(',').count(), String::new());
    line(&fields)
}

/// Returns an empty field for each column of a part of the header.
fn blanks(columns: &str) -> Vec<String> {
    columns.split(',').map(|_| String::new()).collect()
}

fn transfer_fields(transfer: &Transfer) -> Vec<String> {
    let entry = transfer.entry;
    let (k, width) = (entry.chosen(), entry.width());
    let mut fields = vec![kind(entry).into(), float(x_of(k)), k.to_string(), end(entry).into()];
    fields.extend([entry.low, entry.low + width].map(|k| k.to_string()));
    fields.extend([entry.halvings.to_string(), width.to_string(), float(x_of(width))]);
    for v in [entry.v1, entry.v2] {
        fields.extend(v.map(float));
        fields.push(float(size(v)));
    }
    fields
}

/// Returns the fields of the question, and for a transfer the facts that need the question.
fn asked_fields(asked: &Asked, facts: Option<&Facts>) -> Vec<String> {
    let question = match asked {
        Asked::Unknown => return Vec::new(),
        Asked::NoQuestion(_) => blanks(QUESTION),
        Asked::Known(question) => question_fields(question),
    };
    let tested = facts.map_or_else(|| [NAMES.map(|_| String::new()).into(), blanks(TESTED)].concat(), tested);
    [question, tested].concat()
}

fn tested(facts: &Facts) -> Vec<String> {
    let or_blank = |value: Option<f64>| value.map_or(String::new(), float);
    let arc = &facts.arc;
    let below = facts.surface.map_or(String::new(), |_| facts.passed().is_some().to_string());
    let mut fields = Vec::from(facts.changes.map(float));
    fields.extend([
        float(arc.perigee),
        or_blank(arc.apogee),
        float(arc.eccentricity),
        float(arc.inclination),
    ]);
    fields.extend([float(arc.lowest()), or_blank(facts.surface.map(|surface| surface.radius)), below]);
    fields.push(or_blank(facts.miss));
    fields
}

fn question_fields(question: &Question) -> Vec<String> {
    let numbers = question.r1.iter().chain(&question.r2).chain([&question.mu, &question.time]);
    let mut fields: Vec<String> = numbers.map(|number| float(*number)).collect();
    fields.extend([question.revolutions.to_string(), question.way().into()]);
    fields
}

fn float(value: f64) -> String {
    format!("{value:?}")
}

#[cfg(test)]
mod tests {
    use super::*;
    use crate::wire::{Entry, Record, Refusal};

    #[test]
    fn every_line_has_the_columns_of_the_header() {
        let entry = || Entry { low: 0, halvings: 3, upper_chosen: true, v1: [1.0; 3], v2: [2.0; 3] };
        let answer = Record { job: 1, revision: 2, outcome: Outcome::Answered(vec![entry(), entry()]) };
        let question = Question::read(&include_bytes!("../../../samples/questions")[..82]).expect("one");
        let refusals = (1..=14).map(Refusal::plain).chain([Refusal::incomplete(-4095, 2)]);
        let refusals = refusals.map(|of| Record { job: 1, revision: 2, outcome: Outcome::Refused(of) });
        let records: Vec<Record> = refusals.chain([answer]).collect();
        for asked in [Asked::Unknown, Asked::NoQuestion(String::new()), Asked::Known(question)] {
            let lines: String = records.iter().map(|one| item(&Item::new(one, &asked, None))).collect();
            let text = head(!matches!(asked, Asked::Unknown)) + &lines;
            let mut rows = crate::csv::Rows::new(text.as_bytes());
            let mut next = || rows.next().expect("good rows").map(|row| row.fields.len());
            let columns = next();
            assert_eq!(std::iter::from_fn(next).filter(|count| Some(*count) == columns).count(), 17);
        }
    }
}
