//! What the board lacks: records that found no place, and inputs that were not read to their end.

use super::posting::{NO_JOB, NO_SLOT};
use crate::wire::slots::SLOTS;
use crate::words::counted;

/// The most inputs that are named in the line about what is missing. The rest are only counted.
const NAMED: usize = 5;

#[derive(Default)]
pub struct Tally {
    records: u64,
    no_slot: u64,
    malformed: u64,
    no_job: u64,
    /// What is wrong with each of the first inputs that were not read to their end.
    unread: Vec<String>,
    more_unread: u64,
}

impl Tally {
    /// Reports whether no record came.
    pub fn is_empty(&self) -> bool {
        self.records == 0
    }

    /// Counts a record of an input.
    pub fn came(&mut self) {
        self.records += 1;
    }

    /// Counts a record that the board has refused, by the number of the refusal.
    pub fn refused(&mut self, number: u8) {
        match number {
            NO_SLOT => self.no_slot += 1,
            NO_JOB => self.no_job += 1,
            _ => self.malformed += 1,
        }
    }

    /// Counts an input that was not read to its end. The words begin with its name.
    pub fn unread(&mut self, words: String) {
        if self.unread.len() < NAMED {
            self.unread.push(words);
        } else {
            self.more_unread += 1;
        }
    }

    /// Returns the line that marks the board as incomplete, or `None` if nothing is missing.
    pub fn incomplete(&self) -> Option<String> {
        self.missing().map(|words| format!("INCOMPLETE: {words}"))
    }

    /// Returns what is missing on the board and why, or `None` if nothing is missing.
    pub fn missing(&self) -> Option<String> {
        let full = format!(
            "found no free slot (B3): a board has room for {SLOTS} jobs, so post the others to a second board"
        );
        let mut parts = Vec::new();
        for (count, one, several) in [
            (self.no_slot, &full[..], &full[..]),
            (self.malformed, "is malformed (B1)", "are malformed (B1)"),
            (self.no_job, "has job 0 (B2)", "have job 0 (B2)"),
        ] {
            let of =
                if parts.is_empty() { format!(" of {}", counted(self.records, "record")) } else { "".into() };
            if count > 0 {
                parts.push(format!("{count}{of} {}", if count == 1 { one } else { several }));
            }
        }
        parts.extend(self.unread.iter().cloned());
        if self.more_unread > 0 {
            parts.push(format!(
                "and {} could not be read to the end",
                counted(self.more_unread, "more input")
            ));
        }
        (!parts.is_empty()).then(|| parts.join("; "))
    }
}

#[cfg(test)]
mod tests {
    use super::*;

    #[test]
    fn only_what_applies_is_said() {
        assert_eq!(Tally { records: 9, ..Tally::default() }.incomplete(), None);
        let said = |tally: Tally| tally.incomplete().expect("something is missing");
        let unread = vec!["day could not be read to its end".to_string()];
        let all = Tally { records: 10_000, no_slot: 9936, malformed: 2, no_job: 1, unread, more_unread: 0 };
        let words = "9936 of 10000 records found no free slot (B3): a board has room for 64 jobs, so post the others \
                     to a second board; 2 are malformed (B1); 1 has job 0 (B2); day could not be read to its end";
        assert_eq!(all.missing().as_deref(), Some(words));
        assert_eq!(said(all), format!("INCOMPLETE: {words}"));
        let one = Tally { records: 1, malformed: 1, ..Tally::default() };
        assert_eq!(said(one), "INCOMPLETE: 1 of 1 record is malformed (B1)");
        let jobs = Tally { records: 3, no_job: 2, ..Tally::default() };
        assert_eq!(said(jobs), "INCOMPLETE: 2 of 3 records have job 0 (B2)");
    }

    #[test]
    fn many_inputs_are_counted() {
        let mut tally = Tally::default();
        (1..=7).for_each(|i| tally.unread(format!("{i} is text")));
        let words = "1 is text; 2 is text; 3 is text; 4 is text; 5 is text; \
                     and 2 more inputs could not be read to the end";
        assert_eq!(tally.missing().as_deref(), Some(words));
    }
}
