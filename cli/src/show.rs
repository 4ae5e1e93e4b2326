//! `show`: prints records as a table for people, or as JSON or CSV.

mod circular;
mod columns;
mod comma;
mod detail;
pub mod facts;
mod item;
mod json;
pub mod layout;
mod notes;
mod numbers;
pub mod pairs;
pub mod printer;
pub mod refused;
pub mod table;
pub mod view;

use crate::expected;
use crate::options::Options;
use crate::stop::Stop;
use crate::streams::{Input, Output};
use crate::wire::Records;
use pairs::Pairs;
use printer::Printer;
use std::io::BufReader;
use table::Names;
use view::View;

pub fn run(words: &[String]) -> Result<u8, Stop> {
    let options = Options::read(words, &view::FLAGS, &[&view::VALUED[..], &["--questions"]].concat())?;
    let view = View::read(&options)?;
    let (file, questions) = (options.file()?, options.value("--questions"));
    if questions == Some("-") && matches!(file, None | Some("-")) {
        return Stop::said("records and questions cannot both come from standard input");
    }
    if questions.is_none() && options.has("--radius") {
        return Stop::said("--radius needs the questions: --questions FILE");
    }
    let mut input = expected::records(file)?;
    input.not_empty_for(options.value("-o"))?;
    let (mut pairs, asked) = Pairs::open(questions)?;
    let output = Output::open(options.value("-o"), &[input.id(), asked])?;
    show(input, &mut pairs, Printer::new(view, Names::JobAndRevision, questions.is_some()), output)?;
    Ok(0)
}

fn show(input: Input, pairs: &mut Pairs, mut printer: Printer, mut output: Output) -> Result<(), Stop> {
    let name = input.name;
    let mut records = Records::new(BufReader::new(input.bytes));
    let mut head = printer.head();
    let fault = loop {
        let next = match records.next() {
            Err(e) => break Stop::reading(&name, &e),
            Ok(Err(fault)) => break Stop::Said(fault.located(&name, "record")),
            Ok(Ok(next)) => next,
        };
        match (pairs.next(next.as_ref(), records.number), &next) {
            (Err(stop), _) => break stop,
            (Ok(asked), Some(record)) => {
                output.put((std::mem::take(&mut head) + &printer.record(record, &asked)).as_bytes())?;
            }
            (Ok(_), None) => {
                output.put((head + &printer.foot()).as_bytes())?;
                return output.finish();
            }
        }
    };
    // The records before the fault go to standard output, with a line that says that they are not all. A file is not written.
    if let (Stop::Said(words), true) = (&fault, head.is_empty()) {
        output.put(printer.cut(words).as_bytes())?;
    }
    output.flush()?;
    Err(fault)
}
