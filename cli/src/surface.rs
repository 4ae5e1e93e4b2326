//! The surface of the body that a transfer goes round, and the warning about a transfer that passes below it.

use crate::fields::body_of;
use crate::words::number;

#[derive(Clone, Copy)]
pub struct Surface {
    /// The name of the body, if mu is that of a known one.
    pub name: Option<&'static str>,
    /// In km.
    pub radius: f64,
    /// Where the radius comes from.
    pub source: &'static str,
}

impl Surface {
    /// Returns the surface with the given radius or, if none is given, that of the body with this mu.
    pub fn of(mu: f64, radius: Option<f64>) -> Option<Surface> {
        let (body, name) = (body_of(mu), body_of(mu).map(|body| body.name));
        match radius {
            Some(radius) => Some(Surface { name, radius, source: "given" }),
            None => body.map(|body| Surface { name, radius: body.radius, source: body.radius_source }),
        }
    }

    pub fn body(&self) -> &'static str {
        self.name.unwrap_or("the body")
    }

    /// Returns a warning if the lowest point of a transfer, given by its distance from the centre, is below the surface.
    pub fn warning(&self, lowest: f64) -> Option<String> {
        let (body, radius) = (self.body(), number(self.radius));
        let words = || {
            let lowest = rounded(lowest, self.radius);
            format!(
                "passes below the surface of {body}: lowest {lowest} km from the centre, radius {radius} km"
            )
        };
        (lowest < self.radius).then(words)
    }
}

/// Returns a number below a limit with one decimal, or with all digits if that would round it up to the limit or to 0.
fn rounded(value: f64, limit: f64) -> String {
    let rounded = format!("{value:.1}");
    match rounded.parse::<f64>() {
        Ok(told) if told < limit && told > 0.0 && told < 1e15 => rounded,
        _ => number(value),
    }
}

#[cfg(test)]
mod tests {
    use super::*;

    const EARTH: f64 = 398_600.441_8;

    #[test]
    fn a_given_radius_comes_first() {
        let found = |mu, radius| Surface::of(mu, radius).map(|surface| (surface.body(), surface.radius));
        assert_eq!(found(EARTH, None), Some(("earth", 6_378.137)));
        assert_eq!(found(EARTH, Some(6_500.0)), Some(("earth", 6_500.0)));
        assert_eq!(found(7.0, Some(0.5)), Some(("the body", 0.5)));
        assert_eq!(found(7.0, None), None);
    }

    #[test]
    fn a_warning_gives_both_distances() {
        let earth = Surface::of(EARTH, None).expect("a known body");
        let words = "passes below the surface of earth: lowest 2310.4 km from the centre, radius 6378.137 km";
        assert_eq!(earth.warning(2_310.4).as_deref(), Some(words));
        assert_eq!(earth.warning(6_378.137), None);
        let huge = Surface::of(7.0, Some(1e300)).expect("a given radius");
        assert!(huge.warning(1.0).expect("a warning").ends_with("radius 1e300 km"));
    }

    #[test]
    fn a_number_is_not_rounded_up_to_its_limit() {
        assert_eq!(rounded(6_378.1, 6_378.137), "6378.1");
        assert_eq!(rounded(6_377.99, 6_378.0), "6377.99");
        assert_eq!([1e-20, 3e20, 40.0].map(|value| rounded(value, 1e300)), ["1e-20", "3e20", "40.0"]);
    }
}
