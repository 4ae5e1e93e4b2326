//! Reads the texts of a finished picture and finds what is wrong with their places.

use crate::plot::axes::{HEIGHT, LEFT, RIGHT};
use crate::plot::measure::Font;
use crate::plot::room::{shared, Area};
use crate::plot::sheet::WIDTH;

/// Returns the value of an attribute.
fn value<'a>(tag: &'a str, name: &str) -> Option<&'a str> {
    tag.split(&format!(" {name}=\"")).nth(1)?.split('"').next()
}

/// Returns the words of each text with the area that they take.
pub fn texts(picture: &str) -> Vec<(String, Area)> {
    let text = |part: &str| {
        let (tag, rest) = part.split_once('>').expect("a tag");
        let words = rest.split('<').next().expect("words");
        let words =
            words.replace("&lt;", "<").replace("&gt;", ">").replace("&quot;", "\"").replace("&amp;", "&");
        let number = |name: &str| value(tag, name).map(|text| text.parse::<f64>().expect("a number"));
        let font =
            Font { size: number("font-size").unwrap_or(13.0), bold: tag.contains("font-weight=\"bold\"") };
        let (x, y, width) = (number("x").expect("x"), number("y").expect("y"), font.width(&words));
        let left = match value(tag, "text-anchor") {
            Some("middle") => x - 0.5 * width,
            Some("end") => x - width,
            _ => x,
        };
        (words, [left, y - 0.72 * font.size, left + width, y])
    };
    picture.split("<text").skip(1).map(text).collect()
}

/// Returns what is wrong with the texts: one reaches over an edge of the picture or an upright edge of the graph, or two overlap.
pub fn faults(picture: &str) -> Vec<String> {
    let texts = texts(picture);
    let mut faults = Vec::new();
    let top =
        picture.split("class=\"wanted\"").nth(1).and_then(|rest| rest.split("<rect x=\"56.00\" y=\"").nth(1));
    let top = top.and_then(|rest| rest.split('"').next()).map_or(-HEIGHT, |y| y.parse().expect("a height"));
    let edges = [LEFT, RIGHT].map(|x| [x, top, x + 0.1, top + HEIGHT]);
    for (i, (words, area)) in texts.iter().enumerate() {
        if area[0] < 1.0 || area[2] > WIDTH - 1.0 {
            faults.push(format!("{words:?} is from {} to {}", area[0], area[2]));
        }
        if edges.iter().any(|edge| shared(*edge, *area) > 0.0) {
            faults.push(format!("{words:?} crosses the frame"));
        }
        for (others, other) in &texts[..i] {
            if shared(*area, *other) > 0.0 {
                faults.push(format!("{words:?} and {others:?} overlap"));
            }
        }
    }
    faults
}
