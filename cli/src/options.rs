//! The arguments of a command: options, each at most once, and file names.

use crate::similar::similar;
use crate::stop::Stop;
use crate::words::shortened;

pub struct Options {
    values: Vec<(&'static str, String)>,
    pub files: Vec<String>,
}

impl Options {
    /// Reads the arguments. The options in `flags` have no value. The value of an option in `valued` is the next argument, or the text
    /// after its `=`. After `--` every argument is a file name.
    pub fn read(words: &[String], flags: &[&'static str], valued: &[&'static str]) -> Result<Options, Stop> {
        let mut options = Options { values: Vec::new(), files: Vec::new() };
        let mut words = words.iter();
        while let Some(word) = words.next() {
            let (name, joined) = match word.split_once('=') {
                Some((name, value)) if name.starts_with("--") => (name, Some(value.to_string())),
                _ => (word.as_str(), None),
            };
            if let Some(flag) = flags.iter().find(|flag| **flag == name && joined.is_none()) {
                options.put(flag, String::new())?;
            } else if let Some(option) = valued.iter().find(|option| **option == name) {
                let next = |words: &mut std::slice::Iter<String>| match words.next() {
                    Some(value)
                        if value == "--" || flags.iter().chain(valued).any(|other| other == value) =>
                    {
                        Stop::said(format!("{name} needs a value after it, but {value} is an option"))
                    }
                    Some(value) => Ok(value.clone()),
                    None => Stop::said(format!("{name} needs a value after it")),
                };
                options.put(option, joined.map_or_else(|| next(&mut words), Ok)?)?;
            } else if word == "--" {
                options.files.extend(words.by_ref().cloned());
            } else if word.starts_with('-') && word != "-" {
                return Stop::said(unknown(word, name, flags, valued));
            } else {
                options.files.push(word.clone());
            }
        }
        Ok(options)
    }

    fn put(&mut self, name: &'static str, value: String) -> Result<(), Stop> {
        if self.has(name) {
            return Stop::said(format!("{name} is given twice"));
        }
        self.values.push((name, value));
        Ok(())
    }

    pub fn has(&self, name: &str) -> bool {
        self.value(name).is_some()
    }

    pub fn value(&self, name: &str) -> Option<&str> {
        self.values.iter().find(|(option, _)| *option == name).map(|(_, value)| value.as_str())
    }

    /// Returns the file name, for a command that takes at most one.
    pub fn file(&self) -> Result<Option<&str>, Stop> {
        match &self.files[..] {
            [] => Ok(None),
            [name] => Ok(Some(name)),
            [_, second, ..] => Stop::said(format!(
                "this command takes at most one file, but {} is a second one",
                shortened(second)
            )),
        }
    }

    /// Fails if an option in `others` is given, since none of them goes together with `option`.
    pub fn apart(&self, option: &str, others: &[&str]) -> Result<(), Stop> {
        match others.iter().find(|other| self.has(option) && self.has(other)) {
            Some(other) => Stop::said(format!("{other} and {option} cannot be used together")),
            None => Ok(()),
        }
    }
}

/// Returns a message for an unknown option, with the known option that it resembles.
fn unknown(word: &str, name: &str, flags: &[&'static str], valued: &[&'static str]) -> String {
    let known = flags.iter().chain(valued).copied();
    if let Some(flag) = flags.iter().find(|flag| **flag == name) {
        return format!("{flag} takes no value, but {} gives it one", shortened(word));
    }
    let meant = similar(name, known).map(|option| format!("; did you mean {option}?"));
    format!("unknown option {}{}", shortened(word), meant.unwrap_or("; --help lists the options".into()))
}

#[cfg(test)]
mod tests {
    use super::*;

    fn read(words: &[&str]) -> Result<Options, String> {
        let words: Vec<String> = words.iter().map(|word| word.to_string()).collect();
        Options::read(&words, &["--strict"], &["--jobs", "-o"]).map_err(|stop| match stop {
            Stop::Said(words) => words,
            Stop::PipeClosed => "pipe".into(),
        })
    }

    #[test]
    fn values_and_files_are_told_apart() {
        let options = read(&["--jobs", "-1", "-", "--strict", "-o", "out"]).expect("good words");
        assert_eq!((options.value("--jobs"), options.value("-o")), (Some("-1"), Some("out")));
        assert!(options.has("--strict"));
        assert_eq!(options.files, ["-"]);
        assert_eq!(read(&["--jobs=3"]).expect("good words").value("--jobs"), Some("3"));
        let options = read(&["--strict", "--", "--jobs", "-o", "--"]).expect("good words");
        assert_eq!(options.files, ["--jobs", "-o", "--"]);
    }

    #[test]
    fn options_are_kept_apart() {
        let options = read(&["--strict", "--jobs", "2"]).expect("good words");
        assert!(options.apart("--strict", &["-o"]).is_ok() && options.apart("-o", &["--jobs"]).is_ok());
        let told = options.apart("--strict", &["-o", "--jobs"]);
        assert!(
            matches!(told, Err(Stop::Said(words)) if words == "--jobs and --strict cannot be used together")
        );
    }

    #[test]
    fn mistakes_are_named() {
        let said = |words: &[&str]| read(words).err().expect("a mistake");
        assert_eq!(said(&["--jobs"]), "--jobs needs a value after it");
        assert_eq!(said(&["--job", "1"]), "unknown option --job; did you mean --jobs?");
        assert_eq!(said(&["--fast"]), "unknown option --fast; --help lists the options");
        assert_eq!(said(&["-o", "--strict"]), "-o needs a value after it, but --strict is an option");
        assert_eq!(said(&["-o", "--"]), "-o needs a value after it, but -- is an option");
        assert_eq!(said(&["--jbos=3"]), "unknown option --jbos=3; did you mean --jobs?");
        assert_eq!(said(&["--strict", "--strict"]), "--strict is given twice");
        assert_eq!(said(&["--strict=1"]), "--strict takes no value, but --strict=1 gives it one");
    }
}
