//! Elements of SVG. Attributes are written as they are, since this program chooses them; words are escaped.

pub const DARK: &str = "#1a1a1a";
pub const GREY: &str = "#555555";
/// The colour of the wanted time and of warnings.
pub const RED: &str = "#b00020";

/// A white outline that keeps text legible over lines.
const HALO: &str = "stroke=\"white\" stroke-width=\"4\" stroke-linejoin=\"round\" paint-order=\"stroke\"";

/// Escapes the characters that have a meaning in SVG.
pub fn escaped(words: &str) -> String {
    words.replace('&', "&amp;").replace('<', "&lt;").replace('>', "&gt;").replace('"', "&quot;")
}

/// Returns words at a point. `more` has further attributes.
pub fn text(x: f64, y: f64, more: &str, words: &str) -> String {
    format!("<text x=\"{x:.1}\" y=\"{y:.1}\"{}>{}</text>\n", spaced(more), escaped(words))
}

/// Returns a bold label with an outline. The middle of its baseline is at the point.
pub fn label((x, y): (f64, f64), colour: &str, words: &str) -> String {
    let style = format!("text-anchor=\"middle\" font-weight=\"bold\" fill=\"{colour}\" {HALO}");
    text(x, y, &style, words)
}

pub fn line([x1, y1, x2, y2]: [f64; 4], more: &str) -> String {
    format!("<line x1=\"{x1:.2}\" y1=\"{y1:.2}\" x2=\"{x2:.2}\" y2=\"{y2:.2}\"{}/>\n", spaced(more))
}

pub fn rect([x, y, width, height]: [f64; 4], more: &str) -> String {
    let size = format!("width=\"{width:.2}\" height=\"{height:.2}\"");
    format!("<rect x=\"{x:.2}\" y=\"{y:.2}\" {size}{}/>\n", spaced(more))
}

/// Returns a drawing that is clipped to a frame.
pub fn within([x, y, width, height]: [f64; 4], drawn: &str) -> String {
    let size = format!("x=\"{x}\" y=\"{y}\" width=\"{width}\" height=\"{height}\"");
    format!("<svg {size} viewBox=\"{x} {y} {width} {height}\">\n{drawn}</svg>\n")
}

pub fn circle(x: f64, y: f64) -> String {
    let style = format!("fill=\"white\" stroke=\"{DARK}\" stroke-width=\"2\"");
    format!("<circle cx=\"{x:.2}\" cy=\"{y:.2}\" r=\"4.5\" {style}/>\n")
}

fn spaced(attributes: &str) -> String {
    if attributes.is_empty() {
        String::new()
    } else {
        format!(" {attributes}")
    }
}
