//! The entrance checks (01, Numbers of refusal): numbers 1 to 10 in the order of the table, and the problem
//! that an accepted question becomes.

use crate::triangle::{self, square, Triangle};
use crate::wire::{Question, Vector, QUESTION_KIND, QUESTION_LENGTH};

const TWO_40: f64 = (1u64 << 40) as f64;
const TWO_60: f64 = (1u64 << 60) as f64;
const PLANE: f64 = 1.0 / TWO_40;
const SHORT: f64 = 1.0 / 1024.0;

/// The size of the smallest accepted answer buffer, which holds a record of eight entries.
pub const ROOM: usize = 528;
pub const MOST_REVOLUTIONS: u16 = 16;

/// An accepted question, with the values that are computed from it.
#[derive(Clone, Copy, Debug)]
pub struct Problem {
    pub job: u32,
    pub revision: u32,
    pub revolutions: u16,
    pub long: bool,
    pub mu: f64,
    pub triangle: Triangle,
    pub radius1: f64,
    pub radius2: f64,
    pub normal: Vector,
    pub unit1: Vector,
    pub unit2: Vector,
    pub wanted_time: f64,
}

/// Judges a question's bytes for an answer buffer of `room` bytes. Returns the problem, or the number of the refusal.
pub fn judge(bytes: &[u8], room: usize) -> Result<Problem, u16> {
    let question = Question::read(bytes).ok_or(1u16)?;
    check_form(&question)?;
    check_ranges(&question)?;
    if question.revolutions > MOST_REVOLUTIONS {
        return Err(6);
    }
    if room < ROOM {
        return Err(7);
    }
    let normal = check_plane(&question)?;
    let triangle = check_triangle(&question)?;
    Ok(problem(&question, normal, triangle))
}

/// Checks for number 1, except for the size.
fn check_form(q: &Question) -> Result<(), u16> {
    if q.length != QUESTION_LENGTH || q.kind != QUESTION_KIND || q.job == 0 || q.way > 1 || q.spare != 0 {
        return Err(1);
    }
    Ok(())
}

/// Checks for numbers 2 to 5.
fn check_ranges(q: &Question) -> Result<(), u16> {
    let mut components = q.position1.iter().chain(&q.position2);
    if components.any(|x| !x.is_finite() || x.abs() > TWO_40) {
        return Err(2);
    }
    for position in [q.position1, q.position2] {
        let radius = square(position).sqrt();
        if !(1.0..=TWO_40).contains(&radius) {
            return Err(3);
        }
    }
    if !q.mu.is_finite() || q.mu < 1.0 || q.mu > TWO_60 {
        return Err(4);
    }
    if !q.time.is_finite() || q.time < 1.0 || q.time > TWO_40 {
        return Err(5);
    }
    Ok(())
}

/// Checks for number 8. If it doesn't apply, returns the normal of the plane, negated for the long way.
fn check_plane(q: &Question) -> Result<Vector, u16> {
    let (q1, q2) = (square(q.position1), square(q.position2));
    let h = triangle::cross(q.position1, q.position2);
    let hh = square(h);
    if hh <= (q1 * q2) * PLANE {
        return Err(8);
    }
    Ok(triangle::normal(h, hh, q.way == 1))
}

/// Checks for numbers 9 and 10. If neither applies, returns the triangle.
fn check_triangle(q: &Question) -> Result<Triangle, u16> {
    let (r1, r2) = (square(q.position1).sqrt(), square(q.position2).sqrt());
    let chord = triangle::chord(q.position1, q.position2);
    let semiperimeter = triangle::semiperimeter(r1, r2, chord);
    if chord / semiperimeter < SHORT {
        return Err(9);
    }
    let rho = triangle::rho(r1, r2, chord);
    let sigma_square = triangle::sigma_square(rho);
    if sigma_square <= 0.0 {
        return Err(10);
    }
    let lambda = triangle::lambda(chord, semiperimeter, q.way == 1);
    Ok(Triangle { lambda, semiperimeter, chord, rho, sigma: sigma_square.sqrt() })
}

/// Builds the problem of an accepted question.
fn problem(q: &Question, normal: Vector, triangle: Triangle) -> Problem {
    let (r1, r2) = (square(q.position1).sqrt(), square(q.position2).sqrt());
    Problem {
        job: q.job,
        revision: q.revision,
        revolutions: q.revolutions,
        long: q.way == 1,
        mu: q.mu,
        triangle,
        radius1: r1,
        radius2: r2,
        normal,
        unit1: triangle::unit(q.position1, r1),
        unit2: triangle::unit(q.position2, r2),
        wanted_time: triangle::wanted_time(q.mu, triangle.semiperimeter, q.time),
    }
}

impl Problem {
    /// Returns the 22 words of a verdict: four whole numbers, then the bits of eighteen floats.
    pub fn words(&self) -> Vec<u64> {
        let whole = [self.job.into(), self.revision.into(), self.revolutions.into(), self.long.into()];
        let t = &self.triangle;
        let sides = [t.lambda, t.semiperimeter, t.chord, t.rho, t.sigma, self.radius1, self.radius2];
        let directions = [self.normal, self.unit1, self.unit2].concat();
        let floats = [self.mu].into_iter().chain(sides).chain(directions).chain([self.wanted_time]);
        whole.into_iter().chain(floats.map(bits)).collect()
    }
}

/// Returns the bits of a float, with the same pattern for every NaN.
fn bits(x: f64) -> u64 {
    if x.is_nan() {
        0x7FF8_0000_0000_0000
    } else {
        x.to_bits()
    }
}

/// Returns the line of a verdict: the number of the refusal, or 0 and the words of the problem.
pub fn line(verdict: Result<Problem, u16>) -> String {
    match verdict {
        Err(number) => number.to_string(),
        Ok(problem) => {
            let words: String = problem.words().iter().map(|w| format!(" {w:016x}")).collect();
            format!("0{words}")
        }
    }
}
