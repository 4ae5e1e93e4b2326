//! Where the state of an orbit message comes from: v1 from a record, and r1 from the question that the record
//! answers.

use super::outcomes::Outcomes;
use super::questions::Questions;
use super::request::Request;
use crate::expected;
use crate::options::Options;
use crate::stop::Stop;
use crate::streams::Input;

pub struct Sources {
    pub outcomes: Outcomes,
    pub questions: Questions,
    /// The radius of the body in km, if it is given.
    pub radius: Option<f64>,
}

impl Sources {
    /// Reads what the requests need.
    pub fn read(
        [records, questions]: &mut [Input; 2],
        requests: &[Request],
        radius: Option<f64>,
    ) -> Result<Sources, Stop> {
        let outcomes = Outcomes::read(records, requests)?;
        let questions = Questions::read(questions, &outcomes)?;
        Ok(Sources { outcomes, questions, radius })
    }
}

/// Opens the records and the questions. Fails if more than one input of the command is standard input.
pub fn open(options: &Options) -> Result<[Input; 2], Stop> {
    let records = options.file()?.unwrap_or("-");
    let questions = options.value("--questions").unwrap_or("-");
    let files =
        [("records", records), ("questions", questions), ("the list", options.value("--list").unwrap_or(""))];
    let standard: Vec<_> = files.iter().filter(|(_, name)| *name == "-").collect();
    if let [(first, _), (second, _), ..] = standard[..] {
        return Stop::said(format!("{first} and {second} cannot both come from standard input"));
    }
    Ok([expected::records(Some(records))?, expected::questions(Some(questions))?])
}
