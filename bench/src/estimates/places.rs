//! The numbers whose roots are taken for the time at a place (01, Time at one place).

use reference::random::Random;
use reference::time::{x_of, HIGHEST, HIGHEST_TURNING, LOWEST, SPACING};

/// The names of these numbers: the square of y, C1, C2, C3, and u, whose root is taken if there are whole revolutions.
pub const NAMES: [&str; 5] = ["y^2", "C1", "C2", "C3", "u"];

/// Calls `visit` with each number and its position in `NAMES`. A number below zero has no root, so the numbers that
/// depend on its root are left out.
fn visit_roots(lambda: f64, k: i64, visit: &mut impl FnMut(usize, f64)) {
    let x = x_of(k);
    let u = 1.0 - x * x;
    let y_squared = 1.0 - (lambda * lambda) * u;
    let eta = y_squared.sqrt() - lambda * x;
    let c1 = ((1.0 + lambda) + x * eta) / 2.0;
    let c2 = (1.0 + c1.sqrt()) / 2.0;
    let c3 = (1.0 + c2.sqrt()) / 2.0;
    for (i, operand) in [y_squared, c1, c2, c3].into_iter().enumerate().take_while(|&(_, x)| x >= 0.0) {
        visit(i, operand);
    }
    if k <= HIGHEST_TURNING {
        visit(4, u);
    }
}

fn lambda(random: &mut Random) -> f64 {
    2.0 * random.fraction() - 1.0
}

/// Visits the numbers at `count` places with random lambdas in (-1, 1).
pub fn visit_random(count: u64, random: &mut Random, visit: &mut impl FnMut(usize, f64)) {
    for _ in 0..count {
        let k = LOWEST + random.below((HIGHEST - LOWEST + 1) as u64) as i64;
        visit_roots(lambda(random), k, visit);
    }
}

/// Visits the numbers at every station, for `count` random lambdas in (-1, 1).
pub fn visit_stations(count: u64, random: &mut Random, visit: &mut impl FnMut(usize, f64)) {
    for _ in 0..count {
        let lambda = lambda(random);
        (LOWEST..=HIGHEST).step_by(SPACING as usize).for_each(|k| visit_roots(lambda, k, visit));
    }
}
