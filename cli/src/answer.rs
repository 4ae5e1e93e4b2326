//! `answer`: asks a question and prints its answer at once, for one way or both and for one number of whole revolutions
//! or all of them.

use crate::ask::{self, single};
use crate::fields::{self, body_of};
use crate::mistakes::Mistakes;
use crate::options::Options;
use crate::show::pairs::Asked;
use crate::show::printer::Printer;
use crate::show::refused;
use crate::show::table::Names;
use crate::show::view::{self, Form, View};
use crate::stop::{tell, Stop};
use crate::streams::Output;
use crate::wire::{Outcome, Question, Record};
use crate::words::{self, wrapped};

/// The options of the question. The last two are optional.
const FIELDS: [&str; 6] = ["--r1", "--r2", "--mu", "--time", "--way", "--revolutions"];
const NEEDED: usize = 4;
/// The most whole revolutions that the solver accepts.
const MOST_REVOLUTIONS: u16 = 16;

pub fn run(words: &[String]) -> Result<u8, Stop> {
    let options = Options::read(words, &view::FLAGS, &[&FIELDS[..], &view::VALUED].concat())?;
    if let Some(name) = options.files.first() {
        return Stop::said(format!(
            "unexpected argument {}: the question is given by options, and a position has no blanks: 7000,0,0",
            words::shortened(name)
        ));
    }
    let view = View::read(&options)?;
    let questions = questions(&options)?;
    let mut output = Output::open(options.value("-o"), &[])?;
    let (table, width) = (view.form == Form::Table, view.width());
    if table {
        output.put(heading(&questions[0], &view).as_bytes())?;
    }
    let mut printer = Printer::new(view, Names::WayAndRevolutions, true);
    output.put(printer.head().as_bytes())?;
    let records = questions.iter().map(|question| Record::of_question(&question.bytes()));
    let records = records.collect::<Result<Vec<Record>, Stop>>()?;
    let pairs: Vec<(Question, Record)> = questions.into_iter().zip(records).collect();
    for group in pairs.chunk_by(|one, next| table && alike(one, next)) {
        output.put(row(&mut printer, group).as_bytes())?;
    }
    output.put(printer.foot().as_bytes())?;
    if options.value("--revolutions").is_some_and(|text| text.trim() == "all") && pairs.iter().any(is_last) {
        match table {
            true => output.put((wrapped(MORE_REVOLUTIONS, width, "").join("\n") + "\n").as_bytes())?,
            false => tell(MORE_REVOLUTIONS),
        }
    }
    output.finish()?;
    Ok(0)
}

const MORE_REVOLUTIONS: &str =
    "only 0 to 16 whole revolutions can be asked for; transfers with more may be possible in this time";

/// Reports whether a question has the most whole revolutions and an answer. Then more of them may be possible in its time.
fn is_last((question, record): &(Question, Record)) -> bool {
    question.revolutions == MOST_REVOLUTIONS && matches!(record.outcome, Outcome::Answered(_))
}

/// Reports whether two questions of one way were refused for the same reason, so that one line says it of both.
fn alike((one, first): &(Question, Record), (next, second): &(Question, Record)) -> bool {
    let words = |question, record: &Record| match record.outcome {
        Outcome::Refused(refusal) => Some(refused::words(refusal, Some(question))),
        Outcome::Answered(_) => None,
    };
    one.long_way == next.long_way && words(one, first).is_some() && words(one, first) == words(next, second)
}

fn row(printer: &mut Printer, group: &[(Question, Record)]) -> String {
    let (question, record) = &group[0];
    let asked = Asked::Known(question.clone());
    match group {
        [_] => printer.record(record, &asked),
        [.., (last, _)] => printer.equal_refusals(record, &asked, last.revolutions),
        [] => String::new(),
    }
}

/// Returns a question for each way and each number of whole revolutions, numbered by their jobs.
fn questions(options: &Options) -> Result<Vec<Question>, Stop> {
    let mut mistakes = Mistakes::default();
    mistakes.need(options, &FIELDS[..NEEDED]);
    mistakes.stop()?;
    let given = single::geometry(options, &mut mistakes);
    let way = options.value("--way").unwrap_or("short");
    let ways = match way.trim() {
        "both" => vec![false, true],
        _ => vec![mistakes
            .take("--way", fields::way(way).map_err(|words| format!("{words}; 'both' asks both ways")))],
    };
    let revolutions = options.value("--revolutions").unwrap_or(ask::DEFAULT_REVOLUTIONS);
    let revolutions = match revolutions.trim() {
        "all" => (0..=MOST_REVOLUTIONS).collect(),
        _ => {
            let read = fields::revolutions(revolutions);
            vec![mistakes
                .take("--revolutions", read.map_err(|words| format!("{words}; 'all' asks each of 0 to 16")))]
        }
    };
    mistakes.stop()?;
    let pairs = ways.iter().flat_map(|way| revolutions.iter().map(move |revolutions| (*way, *revolutions)));
    let question = |(job, (long_way, revolutions))| Question { job, long_way, revolutions, ..given.clone() };
    Ok((1..).zip(pairs).map(question).collect())
}

/// Returns the lines that say what was asked, before the table.
fn heading(question: &Question, view: &View) -> String {
    let [r1, r2, mu, time, ..] = words::asked(question);
    let body =
        body_of(question.mu).map(|body| format!(" ({}, {})", body.name, body.source)).unwrap_or_default();
    let hours = words::duration(question.time);
    let asked = format!("asked: {r1}, {r2}, {mu}{body}, {time} ({hours})");
    wrapped(&asked, view.width(), "  ").into_iter().map(|line| line + "\n").collect()
}
