use super::*;
use std::f64::consts::PI;

const PARABOLA: i64 = 1 << 32;
const MU: f64 = 398_600.441_8;

/// An orbit around the Earth: its semilatus rectum, its eccentricity and its inclination in degrees. Its perigee is on the x axis.
struct Orbit(f64, f64, f64);

impl Orbit {
    fn state(&self, anomaly: f64) -> [[f64; 3]; 2] {
        let Orbit(p, e, inclination) = *self;
        let (sine, cosine) = anomaly.sin_cos();
        let (across, up) = (inclination.to_radians().cos(), inclination.to_radians().sin());
        let (r, v) = (p / (1.0 + e * cosine), (MU / p).sqrt());
        let turned = |x: f64, y: f64| [x, y * across, y * up];
        [turned(r * cosine, r * sine), turned(-v * sine, v * (e + cosine))]
    }

    fn arc(&self, from: f64, to: f64, revolutions: u16) -> Arc {
        let ([r1, v1], [r2, v2]) = (self.state(from), self.state(to));
        let (long_way, mu) = ((to - from).rem_euclid(TAU) > PI, MU);
        let question = Question { job: 1, revision: 1, revolutions, long_way, r1, r2, mu, time: 1.0 };
        let low = if self.1 < 1.0 { 0 } else { PARABOLA + i64::from(self.1 > 1.0) };
        Arc::of(&question, &Entry { low, halvings: 20, upper_chosen: false, v1, v2 })
    }
}

fn near(found: f64, expected: f64) {
    assert!((found - expected).abs() <= 1e-12 * expected.abs().max(1.0), "{found}, not {expected}");
}

/// From the distance 1 to the distance 3 with mu = 1: a = 2, e = 1/2, p = 3/2. The departure is the perigee.
#[test]
fn a_transfer_of_hohmann() {
    let (v, w) = (1.5f64.sqrt(), 1.5f64.sqrt() / 3.0);
    for (turn, inclination) in [([1.0, 0.0], 0.0), ([-1.0, 0.0], 180.0), ([0.0, 1.0], 90.0)] {
        let [r1, r2] = [[1.0, 0.0, 0.0], [-3.0, 0.0, 0.0]];
        let [v1, v2] = [v, -w].map(|speed| [0.0, turn[0] * speed, turn[1] * speed]);
        let question =
            Question { job: 1, revision: 1, revolutions: 0, long_way: false, r1, r2, mu: 1.0, time: 1.0 };
        let arc = Arc::of(&question, &Entry { low: 0, halvings: 20, upper_chosen: false, v1, v2 });
        near(arc.eccentricity, 0.5);
        near(arc.perigee, 1.0);
        near(arc.apogee.expect("an ellipse"), 3.0);
        near(arc.inclination, inclination);
        near(arc.departure, 0.0);
        near(arc.angle, PI);
        near(arc.lowest(), 1.0);
        near(arc.radius_at(TAU / 4.0), 1.5);
    }
}

/// Each orbit is flown between two true anomalies. `inside` is whether the perigee is on the way.
#[test]
fn the_lowest_point_is_the_perigee_or_an_end() {
    let through_the_earth = Orbit(45e6 / 7e3, 2.0 / 7.0, 30.0);
    let (down, up) = (-(-2f64 / 7.0).acos(), (-2f64 / 7.0).acos());
    near(through_the_earth.arc(down, up, 0).lowest(), 5e3);
    near(through_the_earth.arc(up, down, 0).lowest(), 7e3);
    let (ellipse, retrograde) = (Orbit(8e3, 0.6, 120.0), Orbit(8e3, 0.6, 180.0));
    let (parabola, hyperbola) = (Orbit(8e3, 1.0, 75.0), Orbit(8e3, 1.5, 0.0));
    for (orbit, from, to, revolutions, inside) in [
        (&ellipse, -1.0, 1.2, 0, true),
        (&ellipse, 0.1, 6.2, 0, false),
        (&ellipse, 0.1, 6.2, 1, true),
        (&ellipse, 2.0, 1.0, 0, true),
        (&ellipse, 1.0, 2.0, 3, true),
        (&retrograde, -2.0, 1.0, 0, true),
        (&retrograde, 1.0, 4.0, 0, false),
        (&parabola, -2.0, 1.0, 0, true),
        (&parabola, 0.2, 2.5, 0, false),
        (&hyperbola, -1.5, 1.7, 0, true),
        (&hyperbola, 0.3, 1.5, 0, false),
        (&hyperbola, -1.5, -0.3, 0, false),
    ] {
        let Orbit(p, e, inclination) = *orbit;
        let arc = orbit.arc(from, to, revolutions);
        assert_eq!(arc.passes_perigee(), inside, "from {from} to {to}");
        near(arc.lowest(), if inside { p / (1.0 + e) } else { arc.radii[0].min(arc.radii[1]) });
        near(arc.perigee, p / (1.0 + e));
        near(arc.eccentricity, e);
        near(arc.inclination, inclination);
        near(arc.departure, from.rem_euclid(TAU));
        near(arc.angle, (to - from).rem_euclid(TAU));
        [from, to].iter().zip(arc.radii).for_each(|(anomaly, radius)| near(arc.radius_at(*anomaly), radius));
        assert_eq!(arc.apogee.is_some(), e < 1.0);
        arc.apogee.iter().for_each(|apogee| near(*apogee, p / (1.0 - e)));
    }
    assert_eq!(hyperbola.arc(0.3, 1.5, 0).radius_at(3.0), f64::INFINITY);
}

/// On a nearly circular orbit the true anomaly is nothing but rounding, and yet the lowest point is right.
#[test]
fn nearly_circular_orbits_have_a_lowest_point() {
    for e in [0.0, 1e-17, 1e-16, 1e-15, 1e-14, 1e-13] {
        for from in 0..63 {
            let arc = Orbit(7e3, e, 28.5).arc(f64::from(from) / 10.0, f64::from(from) / 10.0 + 2.0, from % 3);
            near(arc.lowest(), 7e3);
            near(arc.apogee.expect("an ellipse"), 7e3);
            assert!((0.0..TAU).contains(&arc.departure) && arc.angle == arc.angle.clamp(1.99, 2.01));
        }
    }
}

/// The perigee is r1, up to rounding: the anomaly may be just above 0 or just below 2π.
#[test]
fn a_departure_from_the_perigee() {
    for e in [0.1, 0.9, 1.0, 2.0] {
        for tiny in [-1e-9, -1e-16, 0.0, 1e-16, 1e-9] {
            let arc = Orbit(7e3, e, 90.0).arc(tiny, 1.5, 0);
            near(arc.lowest(), 7e3 / (1.0 + e));
            assert!((0.0..TAU).contains(&arc.departure));
        }
    }
    assert_eq!((turn(-1e-17, 1.0), turn(-0.0, 1.0), turn(0.0, 0.0)), (0.0, 0.0, 0.0));
}

/// k decides whether there is an apogee. If the speed says otherwise because of rounding, there is none.
#[test]
fn the_apogee_agrees_with_the_kind() {
    for (e, low, some) in [
        (0.5, PARABOLA, false),
        (0.5, PARABOLA + 1, false),
        (0.5, PARABOLA - 1, true),
        (1.0 - 1e-9, PARABOLA - 1, true),
        (1.5, PARABOLA - 1, false),
    ] {
        let ([r1, v1], [r2, v2]) = (Orbit(7e3, e, 0.0).state(0.1), Orbit(7e3, e, 0.0).state(1.0));
        let question =
            Question { job: 1, revision: 1, revolutions: 0, long_way: false, r1, r2, mu: MU, time: 1.0 };
        let arc = Arc::of(&question, &Entry { low, halvings: 20, upper_chosen: false, v1, v2 });
        assert_eq!(arc.apogee.is_some(), some, "e = {e}, k = {low}");
        assert!(arc.apogee.is_none_or(|apogee| apogee > 8e3), "{:?}", arc.apogee);
    }
}

/// At a perigee of 1 km, the speed is that of a parabola but for 12 digits. 2·mu − v² is 2^-39 − 9·2^-54.
#[test]
fn the_apogee_of_a_very_long_ellipse() {
    let step = 2f64.powi(-27);
    let mu = (1.0 + 6.0 * step) / 2.0 + 2f64.powi(-40);
    let (r1, r2, v1) = ([1.0, 0.0, 0.0], [0.0, 2.0, 0.0], [0.0, 1.0 + 3.0 * step, 0.0]);
    let question = Question { job: 1, revision: 1, revolutions: 0, long_way: false, r1, r2, mu, time: 1.0 };
    let entry = Entry { low: 0, halvings: 20, upper_chosen: false, v1, v2: [0.0; 3] };
    let apogee = Arc::of(&question, &entry).apogee.expect("an ellipse");
    near(apogee, 2.0 * mu / (2f64.powi(-39) - 9.0 * step * step) - 1.0);
}
