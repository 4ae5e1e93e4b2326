//! What is asked for: the orbit message of one transfer.

use super::texts::Text;
use std::rc::Rc;

/// A job and a revision.
pub type Key = (u32, u32);

/// Where an orbit message is asked for: by the options, or on a line of the list, which is a file.
#[derive(Clone)]
pub enum Place {
    Options,
    Line(Rc<str>, usize),
}

impl Place {
    /// Returns the option, or the line and the column, that a sentence is about.
    pub fn of(&self, name: &str) -> String {
        match self {
            Place::Options => format!("--{name}"),
            Place::Line(file, line) => format!("{file}: line {line}, column {name}"),
        }
    }

    /// Returns a sentence, with the line that it is about.
    pub fn say(&self, words: String) -> String {
        match self {
            Place::Options => words,
            Place::Line(file, line) => format!("{file}: line {line}: {words}"),
        }
    }

    /// Returns the words for what chooses among several records or transfers.
    pub fn choose(&self, name: &str) -> String {
        match self {
            Place::Options => format!("choose with --{name}"),
            Place::Line(..) => format!("choose in the column {name}"),
        }
    }
}

/// The record, the entry and the texts of an orbit message. What is `None` is not chosen: then there must be
/// only one to choose from.
pub struct Request {
    pub place: Place,
    pub job: Option<u32>,
    pub revision: Option<u32>,
    pub entry: Option<u32>,
    pub texts: [Text; 8],
}

impl Request {
    /// Reports whether a record of this job and revision may be the one that is asked for.
    pub fn fits(&self, (job, revision): Key) -> bool {
        self.job.is_none_or(|wanted| wanted == job) && self.revision.is_none_or(|wanted| wanted == revision)
    }
}
