//! `opm`: writes the departure state of transfers as orbit messages (CCSDS orbit parameter messages), or
//! reads one back. The proved library writes and reads each orbit message. If a request or an input has a
//! fault, the command writes nothing.

mod clock;
mod folder;
mod list;
mod message;
mod outcomes;
mod questions;
mod reading;
mod request;
mod sources;
mod texts;

use crate::fields;
use crate::mistakes::Mistakes;
use crate::options::Options;
use crate::stop::{tell, Stop};
use crate::streams::{Input, Output};
use request::{Place, Request};
use sources::Sources;
use texts::Text;

const CHOICE: [&str; 3] = ["--job", "--revision", "--entry"];
const OTHERS: [&str; 5] = ["--questions", "--list", "--to", "--radius", "-o"];

pub fn run(words: &[String]) -> Result<u8, Stop> {
    let valued = [&texts::OPTIONS[..], &CHOICE, &OTHERS].concat();
    let options = Options::read(words, &["--read", "--json", "--ignore-extra"], &valued)?;
    if options.has("--read") {
        options.apart("--read", &valued)?;
        return reading::run(&options);
    }
    if options.has("--json") {
        return Stop::said("--json can be used only with --read");
    }
    if options.has("--list") {
        options.apart("--list", &[&CHOICE[..], &["-o"]].concat())?;
        return listed(&options);
    }
    if let Some(option) = ["--to", "--ignore-extra"].iter().find(|option| options.has(option)) {
        return Stop::said(format!("{option} can be used only with --list"));
    }
    single(&options)
}

/// Writes the orbit message that the options ask for.
fn single(options: &Options) -> Result<u8, Stop> {
    let given = texts::given(options)?;
    let mut mistakes = Mistakes::default();
    mistakes.need(options, &["--questions"]);
    mistakes.need(options, &texts::OPTIONS[1..]);
    let request = request(options, given, &mut mistakes);
    mistakes.stop()?;
    let mut inputs = sources::open(options)?;
    match message::make(
        &request,
        &Sources::read(&mut inputs, std::slice::from_ref(&request), radius(options)?)?,
    ) {
        Err(words) => {
            mistakes.add(words);
            mistakes.stop()?;
        }
        Ok(message) => {
            let mut output = Output::open(options.value("-o"), &inputs.each_ref().map(Input::id))?;
            output.put(&message.bytes)?;
            output.finish()?;
            message.warnings.iter().for_each(|words| warn(words));
        }
    }
    Ok(0)
}

/// Returns the request of the options. A text that is missing is empty, and a mistake is recorded for it
/// elsewhere.
fn request(options: &Options, given: [Option<Text>; 8], mistakes: &mut Mistakes) -> Request {
    let mut whole = |name: &str, read: fn(&str) -> Result<u32, String>| {
        options.value(name).map(|text| mistakes.take(name, read(text)))
    };
    Request {
        place: Place::Options,
        job: whole("--job", fields::job),
        revision: whole("--revision", fields::revision),
        entry: whole("--entry", fields::entry),
        texts: given.map(Option::unwrap_or_default),
    }
}

/// Writes the orbit messages of a list. It makes all of them before it writes the first.
fn listed(options: &Options) -> Result<u8, Stop> {
    let mut mistakes = Mistakes::many();
    mistakes.need(options, &["--questions", "--to"]);
    mistakes.stop()?;
    let folder = options.value("--to").unwrap_or_default();
    let mut inputs = sources::open(options)?;
    let mut list = Input::open(options.value("--list"))?;
    let ignore_extra = options.has("--ignore-extra");
    let requests = list::requests(&mut list, ignore_extra, &texts::given(options)?, &mut mistakes)?;
    let sources = Sources::read(&mut inputs, &requests, radius(options)?)?;
    let mut files = folder::Files::new();
    let mut warnings = Vec::new();
    for request in &requests {
        match message::make(request, &sources) {
            Err(words) => mistakes.add(words),
            Ok(message) => {
                warnings.extend(message.warnings.clone());
                folder::add(&mut files, folder, &request.place, message, &mut mistakes);
            }
        }
    }
    let present = folder::leave_out_present(&mut files, &mut mistakes);
    mistakes.stop()?;
    folder::write(folder, &files, present)?;
    warnings.iter().for_each(|words| warn(words));
    Ok(0)
}

fn radius(options: &Options) -> Result<Option<f64>, Stop> {
    options.value("--radius").map(fields::radius).transpose()
}

/// Prints what an orbit message does not say.
fn warn(words: &str) {
    tell(&format!("WARNING: {words}"));
}
