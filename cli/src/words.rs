//! Text and numbers for people to read, shared by the commands.

use crate::wire::Question;

/// Returns the question in six phrases.
pub fn asked(question: &Question) -> [String; 6] {
    let place = |name: &str, r: [f64; 3]| format!("{name} ({}) km", r.map(number).join(", "));
    let revolutions = question.revolutions;
    let s = if revolutions == 1 { "" } else { "s" };
    [
        place("r1", question.r1),
        place("r2", question.r2),
        format!("mu {} km^3/s^2", number(question.mu)),
        format!("time {} s", number(question.time)),
        format!("{revolutions} whole revolution{s}"),
        format!("{} way", question.way()),
    ]
}

/// Returns a number with the fewest digits that read back as the same number, and an exponent if it is very large or very small.
pub fn number(value: f64) -> String {
    if value == 0.0 || (1e-5..1e15).contains(&value.abs()) {
        format!("{value}")
    } else {
        format!("{value:e}")
    }
}

/// Returns a component of a velocity of this size: six decimals, or an exponent if six decimals do not suit the size.
pub fn component(part: f64, size: f64) -> String {
    if size == 0.0 || (0.01..1e6).contains(&size) {
        format!("{part:.6}")
    } else {
        format!("{part:.5e}")
    }
}

/// Returns a time in seconds as a number in the unit that suits it: s, min, h or d.
pub fn duration(seconds: f64) -> String {
    let (size, unit) = match seconds.abs() {
        s if s < 0.01 => return format!("{} s", number(seconds)),
        s if s < 120.0 => (1.0, "s"),
        s if s < 7_200.0 => (60.0, "min"),
        s if s < 172_800.0 => (3_600.0, "h"),
        _ => (86_400.0, "d"),
    };
    let rounded = format!("{:.2}", seconds / size);
    format!("{} {unit}", rounded.trim_end_matches('0').trim_end_matches('.'))
}

/// Returns a text from outside with its control characters escaped, so that it cannot break a line or change a terminal.
pub fn printable(text: &str) -> String {
    let parts = text.chars().map(|c| if c.is_control() { c.escape_default().to_string() } else { c.into() });
    parts.collect()
}

/// The most characters of a text from outside that a message repeats.
const MOST: usize = 60;

/// Returns a text from outside for a message. If it is long, only its beginning is repeated, with its length.
pub fn shortened(text: &str) -> String {
    let count = text.chars().count();
    let start = printable(&text.chars().take(MOST).collect::<String>());
    if count <= MOST {
        return start;
    }
    format!("{start}... ({count} characters)")
}

/// Returns a text from outside for a message, in quotes.
pub fn quoted(text: &str) -> String {
    let count = text.chars().count();
    if count <= MOST {
        return format!("{text:?}");
    }
    format!("{:?}... ({count} characters)", text.chars().take(MOST).collect::<String>())
}

/// Returns "1 record" or "2 records".
pub fn counted(count: u64, what: &str) -> String {
    format!("{count} {what}{}", if count == 1 { "" } else { "s" })
}

/// Breaks words at spaces into lines. Each line after the first begins with the indent. Only a line with a single word can be longer
/// than `width`.
pub fn wrapped(words: &str, width: usize, indent: &str) -> Vec<String> {
    let mut lines = vec![String::new()];
    for word in words.split(' ') {
        let last = lines.last_mut().expect("there is a first line");
        if last.is_empty() {
            *last = word.into();
        } else if last.chars().count() + 1 + word.chars().count() <= width {
            *last += " ";
            *last += word;
        } else {
            lines.push(format!("{indent}{word}"));
        }
    }
    lines
}

#[cfg(test)]
mod tests {
    use super::*;

    #[test]
    fn numbers_are_short() {
        assert_eq!([0.0, 7000.0, 0.1, 1e300, 2e-9].map(number), ["0", "7000", "0.1", "1e300", "2e-9"]);
        assert_eq!(number(f64::NAN), "NaN");
    }

    #[test]
    fn components_keep_digits_that_suit_the_size() {
        assert_eq!((component(1e-5, 1e-5), component(3.0, 5.0)), ("1.00000e-5".into(), "3.000000".into()));
    }

    #[test]
    fn durations_have_a_suitable_unit() {
        let found = [1.5, 100.0, 1_800.0, 21_600.0, 302_400.0, 5_000.0].map(duration);
        assert_eq!(found, ["1.5 s", "100 s", "30 min", "6 h", "3.5 d", "83.33 min"]);
    }

    #[test]
    fn long_texts_are_shortened() {
        assert_eq!((shortened("ab"), quoted("a\"")), ("ab".into(), "\"a\\\"\"".into()));
        assert_eq!(shortened(&"é".repeat(60)), "é".repeat(60));
        assert_eq!((shortened("a\nb"), printable("\u{1b}[31m")), ("a\\nb".into(), "\\u{1b}[31m".into()));
        assert_eq!(shortened(&"é".repeat(61)), format!("{}... (61 characters)", "é".repeat(60)));
        assert_eq!(quoted(&"x".repeat(99)), format!("\"{}\"... (99 characters)", "x".repeat(60)));
        assert_eq!((counted(1, "record"), counted(0, "record")), ("1 record".into(), "0 records".into()));
    }

    #[test]
    fn lines_keep_to_their_width() {
        assert_eq!(wrapped("one two three", 7, "  "), ["one two", "  three"]);
        assert_eq!(wrapped("overlong it is", 4, ""), ["overlong", "it", "is"]);
    }
}
