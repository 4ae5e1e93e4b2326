//! The records of an input by job and revision, in any order. Equal records of a job and revision count as one. Only
//! the records that a request may mean are kept.

use super::request::{Key, Request};
use crate::stop::Stop;
use crate::streams::Input;
use crate::wire::{Frames, Record};
use std::collections::{BTreeMap, BTreeSet};
use std::io::BufReader;

/// The most jobs that a message to the user lists.
const LISTED: usize = 20;

pub struct Outcomes {
    name: String,
    records: u64,
    /// The bytes of the first record of each job and revision, and whether a different one came.
    by_key: BTreeMap<Key, (Vec<u8>, bool)>,
}

/// What some requests ask for.
enum Wanted<'a> {
    /// The jobs of a list.
    Jobs(BTreeSet<u32>),
    One(&'a Request),
}

impl Wanted<'_> {
    fn by(requests: &[Request]) -> Wanted<'_> {
        match requests {
            [one] => Wanted::One(one),
            _ => Wanted::Jobs(requests.iter().filter_map(|request| request.job).collect()),
        }
    }

    fn has(&self, key: Key) -> bool {
        match self {
            Wanted::Jobs(jobs) => jobs.contains(&key.0),
            Wanted::One(request) => request.fits(key),
        }
    }
}

impl Outcomes {
    /// Reads all records of an input, and keeps those that the requests may mean. Fails if one of them cannot be a
    /// record of the solver.
    pub fn read(input: &mut Input, requests: &[Request]) -> Result<Outcomes, Stop> {
        let Input { name, bytes, .. } = input;
        let mut frames = Frames::new(BufReader::new(bytes));
        let (mut records, mut by_key) = (0, BTreeMap::new());
        let wanted = Wanted::by(requests);
        let fault = loop {
            let bytes = match frames.next().map_err(|e| Stop::reading(name, &e))? {
                Err(fault) => break fault,
                Ok(None) => return Ok(Outcomes { name: name.clone(), records, by_key }),
                Ok(Some(bytes)) => bytes,
            };
            let record = match Record::read(&bytes) {
                Err((at, words)) => break frames.fault(at, words),
                Ok(record) => record,
            };
            records += 1;
            let key = (record.job, record.revision);
            if wanted.has(key) {
                let (first, conflict) = by_key.entry(key).or_insert_with(|| (bytes.clone(), false));
                *conflict |= *first != bytes;
            }
            // If one request fits more records than a message lists, the last of them is not needed.
            if matches!(wanted, Wanted::One(_)) && by_key.len() > LISTED + 1 {
                by_key.pop_last();
            }
        };
        Stop::said(fault.located(name, "record"))
    }

    /// Reports whether a record of this job and revision was kept.
    pub fn has(&self, key: Key) -> bool {
        self.by_key.contains_key(&key)
    }

    /// Returns the only record that fits a request, or a sentence that says why there is none.
    pub fn chosen(&self, request: &Request) -> Result<&[u8], String> {
        let found: Vec<_> = self.by_key.iter().filter(|(key, _)| request.fits(**key)).collect();
        let name = &self.name;
        match found[..] {
            [] if self.records == 0 => Err(format!("{name}: has no record")),
            [] => Err(format!("{name}: has no record of {}", wanted(request))),
            [(_, (bytes, false))] => Ok(bytes),
            [(key, (_, true))] => Err(format!(
                "{name}: has different records of {}, which is a conflict: opm cannot tell which of them is right",
                words_of(*key)
            )),
            _ => {
                let keys: Vec<Key> = found.iter().map(|(key, _)| **key).collect();
                Err(format!("{name}: {}", several(request, &keys)))
            }
        }
    }
}

/// Returns the words for a job and a revision.
pub fn words_of((job, revision): Key) -> String {
    format!("job {job}, revision {revision}")
}

/// Returns the words for what a request chooses.
fn wanted(request: &Request) -> String {
    match (request.job, request.revision) {
        (Some(job), Some(revision)) => words_of((job, revision)),
        (Some(job), None) => format!("job {job}"),
        (None, Some(revision)) => format!("revision {revision}"),
        (None, None) => "any job".into(),
    }
}

/// Returns a sentence that says that several records fit a request, and lists them.
fn several(request: &Request, keys: &[Key]) -> String {
    let (what, how) = match request.job {
        None => ("several jobs or revisions".into(), "choose with --job and --revision".into()),
        Some(job) => (format!("several revisions of job {job}"), request.place.choose("revision")),
    };
    let listed = keys.iter().take(LISTED).map(|key| format!("\n  {}", words_of(*key)));
    let mut words = format!("has records of {what}: {how}") + &listed.collect::<String>();
    if keys.len() > LISTED {
        words += "\n  and more";
    }
    words
}

#[cfg(test)]
mod tests;
