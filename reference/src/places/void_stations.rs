//! The stations below x = 0 of some lambdas close to −1. Some of them are void.

use super::zero_divisors::beside_minus_one;
use super::Place;
use crate::sweep::stations;

/// The lambdas, in units of 2^-53 above −1, and the whole revolutions. The first station has a time for the first lambda.
/// For the second one it has a refused root. For the third one it has a zero divisor, and for the last one too, where no
/// other station is void.
const SWEEPS: [(u64, u16); 4] = [(1, 0), (513, 1), (4_095, 16), (2_146_959_360, 3)];

pub fn places() -> Vec<Place> {
    let below = |m: u16| stations(m).filter(|&k| k < 0);
    SWEEPS
        .iter()
        .flat_map(|&(units, m)| below(m).map(move |k| Place::new(beside_minus_one(units), k, m)))
        .collect()
}

#[cfg(test)]
mod tests {
    use super::*;
    use crate::time::{time, Void};

    #[test]
    fn the_first_stations_and_the_void_ones() {
        let all = places();
        let times: Vec<_> = all.iter().map(|p| time(f64::from_bits(p.lambda), p.k, p.m).err()).collect();
        let sweeps: Vec<&[Option<Void>]> = times.chunks(4_095).collect();
        let firsts: Vec<_> = sweeps.iter().map(|sweep| sweep[0]).collect();
        assert_eq!(firsts, [None, Some(Void::Root), Some(Void::Divisor), Some(Void::Divisor)]);
        let void: Vec<usize> = sweeps.iter().map(|sweep| sweep.iter().flatten().count()).collect();
        println!("void stations of 4095: {void:?}");
        assert!(void[..3].iter().all(|&n| n > 1_000) && void[3] == 1);
    }
}
