//! What the disc, the dot or the cross at the centre of the picture is, and the warnings about transfers that pass below the surface.

use crate::plot::measure::NO_BREAK;
use crate::surface::Surface;
use crate::words::number;

/// Returns what the disc or the dot in the picture is. A dot is larger than the body would be to scale.
pub fn words(surface: &Surface, dot: bool) -> String {
    let (mark, larger) = if dot { ("dot", ", drawn larger than to scale") } else { ("disc", "") };
    let name = surface.name.map(|name| format!("{name}, ")).unwrap_or_default();
    let radius = number(surface.radius);
    together(&format!("The {mark} is the body at the centre: {name}radius {radius} km{larger}"))
}

/// Returns a warning if a transfer passes below the surface. `lowest` is its least distance from the centre.
pub fn warning(surface: &Surface, transfer: usize, lowest: f64) -> Option<String> {
    surface.warning(lowest).map(|words| together(&format!("transfer {transfer} {words}")))
}

/// Keeps a distance and its unit on one line.
fn together(words: &str) -> String {
    let (km, radius) = (format!("{NO_BREAK}km"), format!("radius{NO_BREAK}"));
    words.replace(" km", &km).replace("radius ", &radius)
}

#[cfg(test)]
mod tests {
    use super::*;

    #[test]
    fn a_distance_stays_with_its_unit() {
        let earth = Surface::of(398_600.441_8, None).expect("a known body");
        let disc = "The disc is the body at the centre: earth, radius\u{a0}6378.137\u{a0}km";
        assert_eq!(words(&earth, false), disc);
        assert_eq!(
            words(&earth, true),
            format!("{}, drawn larger than to scale", disc.replace("disc", "dot"))
        );
        let told = warning(&earth, 2, 2_310.4).expect("a warning");
        assert!(told.starts_with("transfer 2 passes below the surface of earth: lowest 2310.4\u{a0}km from"));
        assert_eq!(warning(&earth, 2, 7_000.0), None);
    }
}
