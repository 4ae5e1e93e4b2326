//! The reasons why a command stops early, and messages to standard error.

use crate::words::printable;
use std::io::{self, Write};

pub enum Stop {
    /// Bad usage, bad input, or a read or write that failed, with the message.
    Said(String),
    /// The reader of the output has closed it. This is not an error.
    PipeClosed,
}

impl Stop {
    pub fn said<T>(words: impl Into<String>) -> Result<T, Stop> {
        Err(Stop::Said(words.into()))
    }

    /// Returns the reason for a write that failed.
    pub fn writing(name: &str, error: &io::Error) -> Stop {
        match error.kind() {
            io::ErrorKind::BrokenPipe => Stop::PipeClosed,
            _ => Stop::Said(format!("cannot write {}: {error}", printable(name))),
        }
    }

    /// Returns the reason for a read that failed.
    pub fn reading(name: &str, error: &io::Error) -> Stop {
        Stop::Said(format!("cannot read {}: {error}", printable(name)))
    }
}

/// The most bytes of a message's line. Only a text from outside makes a line longer, such as the name of a file.
const LONGEST: usize = 1500;

/// Prints a message to standard error. If that fails, the command goes on.
pub fn tell(words: &str) {
    let lines: Vec<String> = words.split('\n').map(cut).collect();
    let _ = writeln!(io::stderr(), "lambert-cli: {}", lines.join("\n"));
}

/// Returns a line, or its beginning and its length if it is too long.
fn cut(line: &str) -> String {
    match line.char_indices().map(|(at, _)| at).take_while(|at| *at <= LONGEST).last() {
        Some(end) if line.len() > LONGEST => format!("{}... ({} bytes)", &line[..end], line.len()),
        _ => line.into(),
    }
}

#[cfg(test)]
mod tests {
    use super::*;

    #[test]
    fn overlong_lines_are_cut() {
        let most = "x".repeat(LONGEST);
        assert_eq!((cut(""), cut("é"), cut(&most)), (String::new(), "é".into(), most.clone()));
        assert_eq!(cut(&format!("{most}y")), format!("{most}... (1501 bytes)"));
        assert_eq!(cut(&format!("{}é", &most[1..])), format!("{}... (1501 bytes)", &most[1..]));
    }
}
