//! How results are printed: the options that `show` and `answer` share.

use crate::fields;
use crate::options::Options;
use crate::stop::Stop;
use crate::terminal::{self, Colour};

/// The options without a value, and those with one.
pub const FLAGS: [&str; 4] = ["--json", "--csv", "--detail", "--explain"];
pub const VALUED: [&str; 2] = ["--radius", "-o"];

#[derive(Clone, Copy, PartialEq)]
pub enum Form {
    Table,
    Json,
    Csv,
}

/// The width at which words are broken into lines if the width of the output is not known.
const WIDTH: usize = 120;
/// The least width at which words are broken. On a narrower output they go over its edge.
const LEAST: usize = 40;

pub struct View {
    pub form: Form,
    pub detail: bool,
    pub explain: bool,
    pub colour: Colour,
    /// The columns of the output, if they are known.
    pub columns: Option<usize>,
    /// The radius of the body in km, if it is given.
    pub radius: Option<f64>,
}

impl View {
    pub fn read(options: &Options) -> Result<View, Stop> {
        options.apart("--csv", &["--json", "--detail", "--explain"])?;
        options.apart("--json", &["--detail", "--explain"])?;
        let form = match (options.has("--json"), options.has("--csv")) {
            (true, _) => Form::Json,
            (_, true) => Form::Csv,
            _ => Form::Table,
        };
        Ok(View {
            form,
            detail: options.has("--detail"),
            explain: options.has("--explain"),
            colour: Colour::of_output(options.value("-o").is_some_and(|name| name != "-")),
            columns: terminal::columns(),
            radius: options.value("--radius").map(fields::radius).transpose()?,
        })
    }

    /// Returns the width at which words are broken.
    pub fn width(&self) -> usize {
        self.columns.unwrap_or(WIDTH).max(LEAST)
    }
}
