//! `ask`: writes questions as bytes, from options or from a CSV file. If there is a mistake, it writes nothing.

mod draft;
pub mod single;
mod table;

use crate::fields;
use crate::options::Options;
use crate::stop::{tell, Stop};
use crate::streams::{Input, Output};
use crate::words::shortened;
use draft::Draft;

const DEFAULT_REVISION: &str = "1";
pub const DEFAULT_REVOLUTIONS: &str = "0";
const HINT: &str = "name a file with -o, or pass them on to 'lambert-cli solve'";

pub fn run(words: &[String]) -> Result<u8, Stop> {
    let options =
        Options::read(words, &["--ignore-extra"], &[&single::FIELDS[..], &["--csv", "-o"]].concat())?;
    if let Some(name) = options.files.first() {
        let name = shortened(name);
        return Stop::said(format!(
            "unexpected argument {name}: a file is given with --csv, and a position has no blanks: 7000,0,0"
        ));
    }
    options.apart("--csv", &single::FIELDS)?;
    match options.value("--csv") {
        None if options.has("--ignore-extra") => Stop::said("--ignore-extra can be used only with --csv"),
        None => {
            let question = single::question(&options)?;
            let mut output = Output::open_bytes(options.value("-o"), &[], HINT)?;
            output.put(&question.bytes())?;
            output.finish()?;
            Ok(0)
        }
        Some(name) => {
            let mut input = Input::open(Some(name))?;
            let mut draft = Draft::new()?;
            table::questions(&mut input, options.has("--ignore-extra"), &mut draft)?;
            let mut output = Output::open_bytes(options.value("-o"), &[input.id()], HINT)?;
            draft.write(&mut output)?;
            output.finish()?;
            Ok(0)
        }
    }
}

/// Prints the gravitational parameter that is used and, if it was named by a body, its source.
pub fn say_mu(text: &str, value: f64) {
    let source = fields::BODIES.iter().find(|body| body.name == text);
    let source = source.map(|body| format!(" ({}, {})", body.name, body.source)).unwrap_or_default();
    tell(&format!("mu {value:?} km^3/s^2{source}"));
}
