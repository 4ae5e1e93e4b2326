//! The sheet that is filled from the top: lines of words and legends, each within the margins.

use super::measure::{Font, NO_BREAK, PLAIN, TITLE};
use super::svg::{escaped, text, DARK, RED};

/// The width of the picture in its own units. A phone is about as many pixels wide, so the text appears there at its nominal size.
pub const WIDTH: f64 = 400.0;
pub const MARGIN: f64 = 12.0;
/// The space that a sign in a legend takes from its line.
const SIGN: f64 = 34.0;

pub struct Sheet {
    pub drawn: String,
    /// The y down to which the sheet is filled.
    pub y: f64,
}

impl Sheet {
    pub fn new() -> Sheet {
        Sheet { drawn: String::new(), y: 8.0 }
    }

    pub fn title(&mut self, words: &str) {
        self.lines(words, TITLE, "font-size=\"17\" font-weight=\"bold\"", 0.0);
        self.y += 4.0;
    }

    pub fn say(&mut self, words: &str) {
        self.lines(words, PLAIN, "", 0.0);
    }

    pub fn warn(&mut self, words: &str) {
        self.lines(words, PLAIN, &format!("fill=\"{RED}\""), 0.0);
    }

    /// Writes a row of a legend. `sign` draws the sign at a height, between the margin and the margin plus 26.
    pub fn item(&mut self, sign: impl Fn(f64) -> String, words: &str) {
        self.drawn += &sign(self.y + PLAIN.size + 0.5);
        self.lines(words, PLAIN, "", SIGN);
    }

    fn lines(&mut self, words: &str, font: Font, style: &str, indent: f64) {
        for line in font.lines(words, WIDTH - 2.0 * MARGIN - indent) {
            self.y += font.size + 5.0;
            self.drawn += &text(MARGIN + indent, self.y, style, &line);
        }
    }

    /// Returns the picture as a file. It fills the available width up to a limit, and loads no other file.
    pub fn svg(self, name: &str, title: &str, description: &str) -> String {
        let height = (self.y + 12.0).ceil();
        format!(
            "<svg xmlns=\"http://www.w3.org/2000/svg\" viewBox=\"0 0 {WIDTH} {height}\" width=\"100%\" \
             style=\"max-width:56em\" role=\"img\" aria-labelledby=\"{name} {name}-more\">\n\
             <title id=\"{name}\">{}</title>\n<desc id=\"{name}-more\">{}</desc>\n\
             <rect width=\"{WIDTH}\" height=\"{height}\" fill=\"white\"/>\n\
             <g font-family=\"Helvetica, Arial, sans-serif\" font-size=\"13\" fill=\"{DARK}\">\n{}</g>\n</svg>\n",
            escaped(title),
            escaped(description),
            self.drawn
        )
        .replace(NO_BREAK, " ")
    }
}
