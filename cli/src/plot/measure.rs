//! The width of words, and lines of words that fit a width. A viewer without Helvetica and Arial takes another font, so each width here
//! is at least that of Helvetica and that of DejaVu Sans, which is wider.

/// A space at which a line is broken only if its phrase is longer than a line. It becomes a plain space in the finished file.
pub const NO_BREAK: char = '\u{a0}';
/// The mark at both sides of a break inside a word.
const GOES_ON: char = '…';

#[derive(Clone, Copy)]
pub struct Font {
    pub size: f64,
    pub bold: bool,
}

pub const PLAIN: Font = Font { size: 13.0, bold: false };
pub const BOLD: Font = Font { size: 13.0, bold: true };
pub const TITLE: Font = Font { size: 17.0, bold: true };

impl Font {
    /// Returns the greatest width of some words, in units of the picture.
    pub fn width(self, words: &str) -> f64 {
        words.chars().map(|c| self.size * (em(c) + if self.bold { 0.12 } else { 0.0 })).sum()
    }

    /// Breaks words into lines of at most this width: at spaces, inside a phrase that is longer than a line, and at last inside a
    /// word that is longer than a line.
    pub fn lines(self, words: &str, width: f64) -> Vec<String> {
        let mut lines = vec![String::new()];
        for phrase in words.split(' ') {
            if self.width(phrase) <= width {
                self.put(&mut lines, phrase, width);
                continue;
            }
            // Such a phrase begins its own line.
            lines.push(String::new());
            for word in phrase.split(NO_BREAK) {
                self.parts(word, width).iter().for_each(|part| self.put(&mut lines, part, width));
            }
        }
        lines.retain(|line| !line.is_empty());
        lines
    }

    /// Adds a phrase to the last line, or to a new line if the last line has no place for it.
    fn put(self, lines: &mut Vec<String>, phrase: &str, width: f64) {
        match lines.last_mut() {
            Some(last) if last.is_empty() => *last = phrase.into(),
            Some(last) if self.width(&format!("{last} {phrase}")) <= width => *last += &format!(" {phrase}"),
            _ => lines.push(phrase.into()),
        }
    }

    /// Breaks a word that is longer than a line into parts. Each break has a mark at both sides.
    fn parts(self, word: &str, width: f64) -> Vec<String> {
        let mut parts = vec![String::new()];
        for c in word.chars() {
            let last = parts.last_mut().expect("there is a first part");
            // A part has at least one character of the word, however small the width is.
            let begun = last.chars().any(|c| c != GOES_ON);
            if begun && self.width(word) > width && self.width(&format!("{last}{c}{GOES_ON}")) > width {
                last.push(GOES_ON);
                parts.push(format!("{GOES_ON}{c}"));
            } else {
                last.push(c);
            }
        }
        parts
    }
}

/// Returns the greatest width of a character in a plain font, as a part of the font's size.
fn em(c: char) -> f64 {
    match c {
        'I' | 'i' | 'j' | 'l' | '\'' => 0.30,
        ' ' | NO_BREAK | ',' | '.' | '/' | ':' | ';' | '\\' | '|' | '·' => 0.35,
        '(' | ')' | '-' | '[' | ']' | 'f' | 't' => 0.40,
        '!' | 'r' | '¹' | '²' | '³' | '⁰' | '⁴'..='⁹' => 0.45,
        '"' | '*' | 'J' | '`' | 'c' | 's' | 'z' => 0.55,
        '⁻' | '?' | 'L' | '_' | 'k' | 'v' | 'x' | 'y' => 0.60,
        '0'..='9' => 0.64,
        '$' | 'F' | 'T' | 'a' | 'b' | 'd' | 'e' | 'g' | 'h' | 'n'..='q' | 'u' | '{' | '}' => 0.65,
        'A' | 'B' | 'E' | 'K' | 'P' | 'S' | 'V' | 'X'..='Z' => 0.70,
        'C' | 'D' | 'G' | 'H' | 'N' | 'O' | 'Q' | 'R' | 'U' | '&' => 0.80,
        '#' | '+' | '<' | '=' | '>' | '^' | 'w' | '~' => 0.85,
        _ => 1.05,
    }
}

#[cfg(test)]
mod tests {
    use super::*;

    #[test]
    fn digits_are_wide_enough_for_every_font() {
        assert!((PLAIN.width("0123456789") - 13.0 * 6.4).abs() < 1e-9);
        for words in ["x", "T* = 14.44", "Job 7, revision 1", "2·10⁻¹⁷", "ü"] {
            assert!(BOLD.width(words) > PLAIN.width(words) && TITLE.width(words) > BOLD.width(words));
            assert!(PLAIN.width(words) >= 13.0 * 0.3 * words.chars().count() as f64, "{words}");
        }
    }

    #[test]
    fn lines_are_broken_where_it_disturbs_least() {
        let words = "one\u{a0}two three\u{a0}four";
        assert_eq!(PLAIN.lines(words, 400.0), ["one\u{a0}two three\u{a0}four"]);
        assert_eq!(PLAIN.lines(words, 80.0), ["one\u{a0}two", "three\u{a0}four"]);
        assert_eq!(PLAIN.lines(words, 40.0), ["one", "two", "three", "four"]);
        assert_eq!(PLAIN.lines("a bcdefgh", 50.0), ["a", "bcde…", "…fgh"]);
    }

    #[test]
    fn nothing_is_lost_and_nothing_is_too_long() {
        let words = "r1 (1.2345678901234567e300, -695742345.1234567, 4294967295) 12345678901234567890";
        for width in 40..400 {
            let lines = PLAIN.lines(words, width.into());
            assert!(lines.iter().all(|line| PLAIN.width(line) <= width.into()), "{width}: {lines:?}");
            let told: String = lines.join(" ").replace("… …", "");
            assert_eq!(told, words, "{width}");
        }
        assert_eq!(PLAIN.lines("ab", 1.0), ["a…", "…b"]);
    }
}
