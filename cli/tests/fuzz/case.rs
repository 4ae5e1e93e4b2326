//! One run of a command: its arguments and its files.

use crate::chance::Chance;
use crate::folder::{Folder, Found};
use crate::rules;
use std::ffi::OsString;
use std::os::unix::ffi::OsStringExt;

/// One run of a command.
pub struct Case {
    pub words: Vec<OsString>,
    /// The files in the working folder. The file `out` is an old output.
    pub files: Vec<(&'static str, Vec<u8>)>,
    /// The file that is standard input.
    pub input: Option<&'static str>,
    /// The rules of this command beside those for every run.
    pub also: fn(&Case, &Found, &Folder) -> Result<(), String>,
}

impl Case {
    pub fn of(words: &[&str]) -> Case {
        let words = words.iter().map(OsString::from).collect();
        Case { words, files: Vec::new(), input: None, also: |_, _, _| Ok(()) }
    }

    pub fn has(&self, word: &str) -> bool {
        self.words.iter().any(|given| given == word)
    }

    pub fn word(&mut self, word: &str) {
        self.words.push(word.into());
    }

    pub fn value(&mut self, value: Vec<u8>) {
        self.words.push(OsString::from_vec(value));
    }

    /// Adds each of these words or leaves it out.
    pub fn perhaps(&mut self, chance: &mut Chance, words: &[&str]) {
        words.iter().filter(|_| chance.one_in(4)).for_each(|word| self.word(word));
    }

    /// Adds at most one of the words for a form of output.
    pub fn form(&mut self, chance: &mut Chance, words: &[&str]) {
        if !chance.one_in(words.len() + 1) {
            self.word(chance.pick(words));
        }
    }

    /// Adds an input: a file with this name, or standard input.
    pub fn read(&mut self, chance: &mut Chance, name: &'static str, bytes: Vec<u8>) {
        self.files.push((name, bytes));
        match chance.below(4) {
            0 => self.input = Some(name),
            1 => {
                self.input = Some(name);
                self.word("-");
            }
            _ => self.word(name),
        }
    }

    /// Writes to standard output, to a new file or to a file that is there.
    pub fn write(&mut self, chance: &mut Chance) {
        if chance.one_in(2) {
            self.words.extend(["-o".into(), "out".into()]);
            if chance.one_in(2) {
                self.files.push(("out", rules::OLD.to_vec()));
            }
        }
    }
}
