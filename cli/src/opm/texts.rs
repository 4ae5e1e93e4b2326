//! The eight texts of an orbit message. Each comes from the option or from the column that is named like its
//! key.

use super::clock;
use crate::options::Options;
use crate::stop::Stop;

/// The options and the columns of the texts, in the order of the orbit message.
pub const OPTIONS: [&str; 8] = [
    "--creation-date",
    "--originator",
    "--object-name",
    "--object-id",
    "--center-name",
    "--ref-frame",
    "--time-system",
    "--epoch",
];
pub const COLUMNS: [&str; 8] = [
    "creation_date",
    "originator",
    "object_name",
    "object_id",
    "center_name",
    "ref_frame",
    "time_system",
    "epoch",
];

/// The most bytes of a text.
const LONGEST: usize = 60;

/// A text, and the option or the line and column that it comes from.
#[derive(Clone, Default)]
pub struct Text {
    pub place: String,
    pub value: String,
}

/// Returns the texts that the options give. If there is no creation date, it is the current time in UTC.
pub fn given(options: &Options) -> Result<[Option<Text>; 8], Stop> {
    let text =
        |option: &str| options.value(option).map(|value| Text { place: option.into(), value: value.into() });
    let mut texts = OPTIONS.map(text);
    if texts[0].is_none() {
        texts[0] = Some(Text { place: OPTIONS[0].into(), value: clock::now()? });
    }
    Ok(texts)
}

/// Returns the texts as lines, each ended by LF.
pub fn lines(texts: &[Text; 8]) -> Vec<u8> {
    texts.iter().flat_map(|text| [text.value.as_bytes(), b"\n"].concat()).collect()
}

/// Returns a sentence for each text that is the reason of B5. The proved library alone decides which texts
/// are legal. If no fault is found here, one sentence says that a text is wrong without naming it.
pub fn why(texts: &[Text; 8]) -> Vec<String> {
    let wrong = |text: &Text| Some(format!("{}: {} (B5)", text.place, fault(&text.value)?));
    let found: Vec<String> = texts.iter().filter_map(wrong).collect();
    if found.is_empty() {
        vec!["one of the eight texts cannot stand in an orbit message (B5)".into()]
    } else {
        found
    }
}

fn fault(text: &str) -> Option<String> {
    match text.len() {
        0 => return Some("is empty".into()),
        size if size > LONGEST => return Some(format!("has {size} bytes, and a text has at most {LONGEST}")),
        _ => {}
    }
    if let Some(other) = text.chars().find(|c| !(' '..='~').contains(c)) {
        return Some(format!("has the character {other:?}, which is not printable ASCII"));
    }
    let blank = text.starts_with(' ') || text.ends_with(' ');
    blank.then(|| format!("{text:?} has a blank first or last"))
}

#[cfg(test)]
mod tests {
    use super::*;
    use crate::proved::orbit_message;

    /// An answer with one entry, all zeros.
    fn answer() -> Vec<u8> {
        [&[76, 0, 0, 0, 2, 0, 1, 0, 0, 0, 1, 0, 0, 0, 1, 0][..], &[0; 64]].concat()
    }

    fn with(value: &str) -> [Text; 8] {
        let text = |value: &str| Text { place: "--epoch".into(), value: value.into() };
        std::array::from_fn(|i| text(if i == 7 { value } else { "a" }))
    }

    /// For these texts, a fault is found exactly if the library gives B5.
    #[test]
    fn each_reason_is_one_of_the_library() {
        let long = "x".repeat(61);
        for (value, words) in [
            ("", "is empty"),
            (&long, "has 61 bytes, and a text has at most 60"),
            ("two\nlines", "has the character '\\n', which is not printable ASCII"),
            ("tab\t", "has the character '\\t', which is not printable ASCII"),
            ("\u{7f}", "has the character '\\u{7f}', which is not printable ASCII"),
            ("\u{1f}", "has the character '\\u{1f}', which is not printable ASCII"),
            ("Zürich", "has the character 'ü', which is not printable ASCII"),
            (" a", "\" a\" has a blank first or last"),
            ("a ", "\"a \" has a blank first or last"),
            (" ", "\" \" has a blank first or last"),
        ] {
            assert_eq!(orbit_message(&answer(), 1, [0.0; 3], &lines(&with(value))), Err(5), "{value:?}");
            assert_eq!(why(&with(value)), [format!("--epoch: {words} (B5)")]);
        }
        for value in ["a", "~", "!", "a = b", "a  b", "=", &long[1..]] {
            assert!(orbit_message(&answer(), 1, [0.0; 3], &lines(&with(value))).is_ok(), "{value:?}");
            assert_eq!(why(&with(value)), ["one of the eight texts cannot stand in an orbit message (B5)"]);
        }
    }
}
