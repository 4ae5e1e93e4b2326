//! The places on which the time is compared, in a fixed order.

mod anywhere;
mod ends;
mod lambdas;
mod near;
mod stations;
mod two_reasons;
mod void_stations;
pub(crate) mod zero_divisors;

use crate::random::{pick, Random};
use crate::time::time;

pub const FRAME: usize = 18;

/// The input of the time step: the bits of lambda, which may be any pattern, k and M.
#[derive(Clone, Copy, Debug, PartialEq, Eq)]
pub struct Place {
    pub lambda: u64,
    pub k: i64,
    pub m: u16,
}

impl Place {
    fn new(lambda: f64, k: i64, m: u16) -> Place {
        Place { lambda: lambda.to_bits(), k, m }
    }

    /// Returns lambda's bits, k and M, each little-endian.
    pub fn frame(&self) -> [u8; FRAME] {
        let mut frame = [0; FRAME];
        frame[..8].copy_from_slice(&self.lambda.to_le_bytes());
        frame[8..16].copy_from_slice(&self.k.to_le_bytes());
        frame[16..].copy_from_slice(&self.m.to_le_bytes());
        frame
    }

    /// Returns the bits of the place's time as sixteen hexadecimal digits, or `void` and the number of the reason.
    pub fn line(&self) -> String {
        match time(f64::from_bits(self.lambda), self.k, self.m) {
            Ok(t) => format!("{:016x}", t.to_bits()),
            Err(reason) => format!("void {}", reason.number()),
        }
    }
}

/// Returns every place of the comparison.
pub fn places() -> Vec<Place> {
    let mut r = Random::new(9);
    let mut all = stations::places();
    all.extend(ends::places());
    all.extend(lambdas::places(&mut r));
    all.extend(near::places(&mut r));
    all.extend(anywhere::inside(&mut r));
    all.extend(anywhere::outside(&mut r));
    all.extend(void_stations::places());
    all.extend(zero_divisors::places(&mut r));
    all.extend(two_reasons::places(&mut r));
    all
}

/// Draws a place with a lambda close to −1, where roots are refused and divisors are zero, or close to 1.
pub fn close_to_one(r: &mut Random) -> Place {
    match r.below(4) {
        0 => near::place(r.below(42) as u32, r),
        1 => {
            let p = near::place(r.below(42) as u32, r);
            let sign = [0, 1 << 63];
            Place { lambda: p.lambda ^ pick(&sign, r), k: pick(&[p.k, -p.k], r), ..p }
        }
        _ => zero_divisors::place(r),
    }
}

#[cfg(test)]
mod tests;
