//! Opens an input that has to hold questions or records. If it plainly holds something else, the message says what it
//! holds and what to do with it.

use crate::proved::post;
use crate::stop::Stop;
use crate::streams::Input;
use crate::wire::slots::BOARD;
use crate::wire::{form, u16_at, u32_at, Question, ROOM, SLOT};

#[derive(Clone, Copy, PartialEq)]
pub enum Content {
    Questions,
    Records,
}

pub fn questions(name: Option<&str>) -> Result<Input, Stop> {
    opened(name, Content::Questions)
}

pub fn records(name: Option<&str>) -> Result<Input, Stop> {
    opened(name, Content::Records)
}

fn opened(name: Option<&str>, wanted: Content) -> Result<Input, Stop> {
    let mut input = Input::open(name)?;
    if is_board(&mut input)? {
        return Stop::said(format!("{}: is a board: 'lambert-cli board --board FILE' prints it", input.name));
    }
    match other(&mut input, wanted)? {
        Some(words) => Stop::said(format!("{}: {words}", input.name)),
        None => Ok(input),
    }
}

/// Reports whether an input is a file that holds a board. Only a file of a board's size is looked at.
fn is_board(input: &mut Input) -> Result<bool, Stop> {
    if input.file.as_ref().is_none_or(|file| !file.is_file() || file.len() != BOARD as u64) {
        return Ok(false);
    }
    Ok(is_board_alone(&input.first(BOARD)?))
}

/// Reports whether bytes are a board and cannot be read as records too. A board whose slots are all full can.
pub fn is_board_alone(bytes: &[u8]) -> bool {
    // Posting an empty record changes no board, and its result is the number 0 exactly if the bytes are not a board.
    bytes.len() == BOARD
        && post(&mut bytes.to_vec(), &[]) != 0
        && bytes.chunks(ROOM).any(|slot| u32_at(slot, 0) as usize + 4 != ROOM)
}

/// Returns a sentence that says what an input holds, if its beginning shows that it is not what is wanted.
pub fn other(input: &mut Input, wanted: Content) -> Result<Option<&'static str>, Stop> {
    let first = input.first(match wanted {
        Content::Questions => SLOT,
        Content::Records => form::HEAD,
    })?;
    Ok(match wanted {
        _ if is_text(&first) && wanted == Content::Questions => {
            Some("is text, not questions: 'lambert-cli ask --csv' turns a CSV file into questions")
        }
        _ if is_text(&first) => {
            Some("is text, not records: 'lambert-cli solve' writes the records of questions")
        }
        Content::Questions if is_record(&first) => {
            Some("has records, not questions: 'lambert-cli show' prints records")
        }
        Content::Records if is_question(&first) => {
            Some("has questions, not records: 'lambert-cli solve' writes their records")
        }
        _ => None,
    })
}

/// Whether the first bytes of an input are text: there is one, all of them are UTF-8, and no control character but a
/// tab or a line end is among them. A question or a record has a zero in its first four bytes.
fn is_text(first: &[u8]) -> bool {
    let text = match std::str::from_utf8(first) {
        Ok(text) => text,
        // The last character may be cut.
        Err(e) if e.error_len().is_none() => {
            std::str::from_utf8(&first[..e.valid_up_to()]).unwrap_or_default()
        }
        Err(_) => return false,
    };
    !text.is_empty() && text.chars().all(|c| !c.is_control() || "\t\r\n".contains(c))
}

fn is_record(first: &[u8]) -> bool {
    first.len() >= form::HEAD && form::size_of(&first[..form::HEAD]).is_ok()
}

fn is_question(first: &[u8]) -> bool {
    first.len() >= 6 && u32_at(first, 0) == Question::LENGTH && u16_at(first, 4) == Question::KIND
}

#[cfg(test)]
mod tests {
    use super::*;

    fn found(bytes: &[u8], wanted: Content) -> Option<&'static str> {
        let bytes = Box::new(std::io::Cursor::new(bytes.to_vec()));
        let mut input = Input { name: "input".into(), bytes, file: None };
        other(&mut input, wanted).ok().expect("bytes can be read")
    }

    #[test]
    fn what_is_there_is_named() {
        let questions = include_bytes!("../../samples/questions");
        let refusal = [12, 0, 0, 0, 3, 0, 7, 0, 0, 0, 2, 0, 0, 0, 11, 0];
        let text = include_bytes!("../../samples/questions.csv");
        for (bytes, wanted, words) in [
            (&text[..], Content::Questions, "is text, not questions"),
            (text, Content::Records, "is text, not records"),
            ("Zürich, ä".as_bytes(), Content::Records, "is text, not records"),
            (&refusal, Content::Questions, "has records, not questions"),
            (questions, Content::Records, "has questions, not records"),
        ] {
            assert!(found(bytes, wanted).expect("another content").starts_with(words), "{words}");
        }
        assert_eq!(found(questions, Content::Questions), None);
        assert_eq!(found(&refusal, Content::Records), None);
    }

    #[test]
    fn damaged_bytes_are_left_to_the_command() {
        for bytes in [&b""[..], &[0; 82], &[255; 9], b"text\0", b"\x1b[0m", &[78, 0, 0, 0]] {
            assert_eq!(found(bytes, Content::Questions), None);
            assert_eq!(found(bytes, Content::Records), None);
        }
    }

    /// What was looked at stays part of the input.
    #[test]
    fn nothing_is_taken_from_the_input() {
        let bytes: Vec<u8> = (0..200).collect();
        let mut input =
            Input { name: "x".into(), bytes: Box::new(std::io::Cursor::new(bytes.clone())), file: None };
        assert_eq!(other(&mut input, Content::Questions).ok(), Some(None));
        let mut all = Vec::new();
        std::io::Read::read_to_end(&mut input.bytes, &mut all).expect("bytes can be read");
        assert_eq!(all, bytes);
    }
}
