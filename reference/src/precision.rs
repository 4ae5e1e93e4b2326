//! How precise 01's times are: the largest relative errors over a grid of places.

use crate::precise::{precise_time, relative_error};
use crate::time::{time_at, x_of, HIGHEST, HIGHEST_TURNING, LOWEST, PARABOLA};
use std::fmt;

/// A place of the grid and the relative error of its time, None if the place is void.
#[derive(Clone, Copy, Debug)]
struct Found {
    lambda: f64,
    x: f64,
    m: u16,
    error: Option<f64>,
}

/// A part of the grid, which is one row of the table. Both ends of x belong to it.
struct Region {
    lambdas: fn(f64) -> bool,
    name: &'static str,
    x: [f64; 2],
}

/// A range of lambda: its name, and the test whether a lambda belongs to it.
type Range = (&'static str, fn(f64) -> bool);

const LAMBDAS: [Range; 6] = [
    ("|L| <= 0.9", |l| l.abs() <= 0.9),
    ("-0.9996 to -0.9", |l| -0.9996 < l && l < -0.9),
    ("0.9 to 0.9996", |l| 0.9 < l && l < 0.9996),
    ("1 + L = 2^-13 to 2^-26", |l| -l > 0.9996 && 1.0 + l > 1e-8),
    ("1 + L below 2^-26", |l| 1.0 + l <= 1e-8),
    ("above 0.9996", |l| l > 0.9996),
];
const BANDS: [[f64; 2]; 4] = [[-1.0, -0.9], [-0.9, 0.0], [0.0, 0.9], [0.9, 4.0]];

/// Returns the table. Before it come the largest errors overall, over the lambdas that the entrance
/// accepts, and over |L| <= 0.9.
pub fn report() -> String {
    let all = grid();
    let ordinary: Vec<Found> = all.iter().filter(|f| f.lambda.abs() <= 0.9).copied().collect();
    let accepted: Vec<Found> = all.iter().filter(|f| f.lambda.abs() < 0.9996).copied().collect();
    let mut lines = vec![
        format!("largest relative error overall:        {}", Summary::of(&all)),
        format!("of lambdas the entrance lets pass:     {}", Summary::of(&accepted)),
        format!("over |L| <= 0.9:                       {}", Summary::of(&ordinary)),
    ];
    for region in regions() {
        let inside: Vec<Found> = all.iter().filter(|f| region.holds(f)).copied().collect();
        let [low, high] = region.x;
        lines.push(format!("{:<22} x {low:4} to {high:4}: {}", region.name, Summary::of(&inside)));
    }
    lines.join("\n") + "\n"
}

fn regions() -> impl Iterator<Item = Region> {
    LAMBDAS.into_iter().flat_map(|(name, lambdas)| BANDS.map(|x| Region { lambdas, name, x }))
}

impl Region {
    fn holds(&self, f: &Found) -> bool {
        (self.lambdas)(f.lambda) && (self.x[0]..=self.x[1]).contains(&f.x)
    }
}

/// Evaluates every lambda of `lambdas` with every k of `some_k` that is in range, for M from 0 to 2.
fn grid() -> Vec<Found> {
    let mut all = Vec::new();
    for lambda in lambdas() {
        for m in 0..=2 {
            let highest = if m == 0 { HIGHEST } else { HIGHEST_TURNING };
            all.extend(some_k().filter(|&k| k <= highest).map(|k| found(lambda, k, m)));
        }
    }
    all
}

fn found(lambda: f64, k: i64, m: u16) -> Found {
    let error = time_at(lambda, k, m).map(|t| relative_error(t, precise_time(lambda, k, m)));
    Found { lambda, x: x_of(k), m, error }
}

/// Returns tenths, some values up to ±0.999, those of the shortest accepted chord (c/s = 2^-10), and some closer to ±1.
fn lambdas() -> impl Iterator<Item = f64> {
    let tenths = (-9..=9).map(|i| f64::from(i) / 10.0);
    let shortest_chord = (1.0 - 1.0 / 1024.0f64).sqrt();
    let near = [0.95, 0.98, 0.99, 0.995, 0.998, 0.999, shortest_chord];
    let closer = [13, 16, 20, 26, 27, 30, 36, 42, 48, 52].map(|j| 1.0 - 2f64.powi(-j));
    tenths.chain(near.into_iter().chain(closer).flat_map(|l| [l, -l]))
}

/// Returns k over the whole range of x, denser near −1 and near 1. Except for the ends, x = 0 and x = 1,
/// the numbers have no pattern in their digits.
fn some_k() -> impl Iterator<Item = i64> {
    let plain = [LOWEST, 0, HIGHEST_TURNING, PARABOLA, HIGHEST];
    let steps = (1..60).map(|i| LOWEST + i * 356_123_457).filter(|&k| k < HIGHEST);
    let low = (1..60).map(|i| LOWEST + i * i * 123_457);
    let parabola = (0..14).flat_map(|i| [1i64, -1].map(|sign| PARABOLA + sign * ((87_654_321 << i) >> 16)));
    plain.into_iter().chain(steps).chain(low).chain(parabola)
}

/// The number of places in a part of the grid, how many of them are void, and the place with the largest error.
struct Summary {
    places: usize,
    void: usize,
    worst: Option<Found>,
}

impl Summary {
    fn of(part: &[Found]) -> Summary {
        let timed = part.iter().filter(|f| f.error.is_some());
        let worst = timed.max_by(|a, b| a.error.partial_cmp(&b.error).unwrap()).copied();
        let void = part.iter().filter(|f| f.error.is_none()).count();
        Summary { places: part.len(), void, worst }
    }
}

impl fmt::Display for Summary {
    fn fmt(&self, out: &mut fmt::Formatter) -> fmt::Result {
        if let Some(Found { lambda, x, m, error: Some(error) }) = self.worst {
            write!(out, "{error:9.2e} at L = {lambda}, x = {x}, M = {m}")?;
        }
        write!(out, " ({} places, {} void)", self.places, self.void)
    }
}
