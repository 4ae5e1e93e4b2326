//! Times several functions on the same operands. They run in turn, so that other work on the machine affects all of them alike.

use std::hint::black_box;
use std::time::Instant;

pub const ROUNDS: usize = 25;

/// Returns for each function the time of a call in nanoseconds: the average over the operands, in the fastest round.
pub fn nanoseconds<T: Copy, const N: usize>(operands: &[T], functions: [&dyn Fn(T) -> u64; N]) -> [f64; N] {
    let sum = |f: &dyn Fn(T) -> u64| operands.iter().fold(0u64, |sum, &x| sum.wrapping_add(f(black_box(x))));
    best(operands.len(), functions.map(|f| move || sum(f)))
}

/// Returns the same for calls of which each waits for the one before: the last bit of the result is added to the next
/// operand.
pub fn nanoseconds_in_a_row<const N: usize>(
    operands: &[u64],
    functions: [&dyn Fn(u64) -> u64; N],
) -> [f64; N] {
    let last =
        |f: &dyn Fn(u64) -> u64| operands.iter().fold(0, |previous, &b| f(black_box(b) + (previous & 1)));
    best(operands.len(), functions.map(|f| move || last(f)))
}

/// Returns for each loop the nanoseconds of one of its calls, in the fastest round.
fn best<const N: usize>(calls: usize, loops: [impl Fn() -> u64; N]) -> [f64; N] {
    let mut best = [f64::INFINITY; N];
    for _ in 0..ROUNDS {
        for (run, least) in loops.iter().zip(&mut best) {
            let start = Instant::now();
            let result = run();
            let each = start.elapsed().as_nanos() as f64 / calls as f64;
            black_box(result);
            *least = least.min(each);
        }
    }
    best
}
