//! The bodies that are known by name: their gravitational parameters and their radii.

/// A body that `--mu` and a column `mu` know by name.
pub struct Body {
    pub name: &'static str,
    /// The gravitational parameter in km³/s², of the body alone, without its moons.
    pub mu: f64,
    pub source: &'static str,
    /// In km.
    pub radius: f64,
    pub radius_source: &'static str,
}

pub static BODIES: [Body; 4] = [
    Body {
        name: "earth",
        mu: 398_600.441_8,
        source: "WGS 84, as in GeographicLib 2.1.2",
        radius: 6_378.137,
        radius_source: "WGS 84, equatorial",
    },
    Body {
        name: "moon",
        mu: 4_902.800_066_163_796,
        source: HORIZONS,
        radius: 1_737.4,
        radius_source: "IAU/WGCCRE, mean",
    },
    Body {
        name: "mars",
        mu: 42_828.373_620_699_09,
        source: HORIZONS,
        radius: 3_396.19,
        radius_source: "IAU/WGCCRE, equatorial",
    },
    Body {
        name: "sun",
        mu: 132_712_440_041.939_38,
        source: HORIZONS,
        radius: 695_700.0,
        radius_source: "IAU 2015 Resolution B3, nominal",
    },
];

const HORIZONS: &str = "JPL's gm_Horizons.pck, as in Skyfield 1.45";

/// Returns the body with exactly this gravitational parameter.
pub fn body_of(mu: f64) -> Option<&'static Body> {
    BODIES.iter().find(|body| body.mu == mu)
}
