//! The mistakes in what a command was given. They are collected, so that one run prints them all.

use crate::options::Options;
use crate::stop::Stop;
use crate::words::counted;
use std::collections::HashSet;

/// The mistakes found so far, each with the option or the line and column where it is.
pub struct Mistakes {
    list: Vec<String>,
    /// The mistakes of the list, to find one that is there.
    kept: HashSet<String>,
    /// The most mistakes that are kept. The others are only counted: a file can have very many.
    most: usize,
    more: u64,
}

impl Default for Mistakes {
    fn default() -> Mistakes {
        Mistakes { list: Vec::new(), kept: HashSet::new(), most: 20, more: 0 }
    }
}

impl Mistakes {
    /// Returns an empty list that will keep many mistakes.
    pub fn many() -> Mistakes {
        Mistakes { most: 1000, ..Mistakes::default() }
    }

    pub fn take<T: Default>(&mut self, place: &str, read: Result<T, String>) -> T {
        read.unwrap_or_else(|reason| {
            self.push(format!("{place}: {reason}"));
            T::default()
        })
    }

    /// Records a mistake for each of these options that is not given.
    pub fn need(&mut self, options: &Options, names: &[&str]) {
        for name in names.iter().filter(|name| !options.has(name)) {
            self.push(format!("{name}: is missing; --help shows its form"));
        }
    }

    pub fn push(&mut self, mistake: String) {
        if self.list.len() < self.most {
            self.kept.insert(mistake.clone());
            self.list.push(mistake);
        } else {
            self.more += 1;
        }
    }

    /// Adds mistakes that are not kept yet.
    pub fn add(&mut self, mistakes: Vec<String>) {
        mistakes.into_iter().for_each(|mistake| {
            if !self.kept.contains(&mistake) {
                self.push(mistake);
            }
        });
    }

    pub fn count(&self) -> u64 {
        self.list.len() as u64 + self.more
    }

    /// Stops the command with the mistakes that were kept and the number of the others, if there are any.
    pub fn stop(&self) -> Result<(), Stop> {
        let mut told = self.list.join("\nlambert-cli: ");
        if self.more > 0 {
            told += &format!("\nlambert-cli: and {}", counted(self.more, "more mistake"));
        }
        if told.is_empty() {
            Ok(())
        } else {
            Stop::said(told)
        }
    }
}
