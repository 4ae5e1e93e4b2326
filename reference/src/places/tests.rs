//! The list is as long and as varied as the comparison needs.

use super::*;
use crate::time::{time, Void, HIGHEST, HIGHEST_TURNING, LOWEST, MOST_TURNS};

fn outcome(p: &Place) -> Result<f64, Void> {
    time(f64::from_bits(p.lambda), p.k, p.m)
}

/// `NotFinite` never occurs (see `time::finite`).
#[test]
fn times_and_every_kind_of_void_occur() {
    let all = places();
    let outcomes: Vec<_> = all.iter().map(outcome).collect();
    let count = |why: Void| outcomes.iter().filter(|&&o| o == Err(why)).count();
    let timed = outcomes.iter().filter(|o| o.is_ok()).count();
    let voids = [Void::Range, Void::Root, Void::Divisor].map(count);
    println!("{} places: {timed} timed, void by range, root, divisor: {voids:?}", all.len());
    assert!(all.len() >= 100_000 && timed >= 80_000);
    assert!(voids.iter().all(|&n| n >= 1_000), "{voids:?}");
    assert_eq!(count(Void::NotFinite), 0);
}

#[test]
fn places_close_to_one_have_every_reason_but_the_last() {
    let mut r = Random::new(1);
    let outcomes: Vec<_> = (0..10_000).map(|_| outcome(&close_to_one(&mut r))).collect();
    let count = |why: Void| outcomes.iter().filter(|&&o| o == Err(why)).count();
    let voids = [Void::Range, Void::Root, Void::Divisor].map(count);
    println!("of 10000 places close to one, void by range, root, divisor: {voids:?}");
    assert!(voids[1] > 500 && voids[2] > 500 && count(Void::NotFinite) == 0);
}

#[test]
fn every_number_of_turns_occurs_timed_and_at_its_ends() {
    let all = places();
    for m in 0..=MOST_TURNS {
        let highest = if m == 0 { HIGHEST } else { HIGHEST_TURNING };
        for k in [LOWEST, highest] {
            assert!(all.iter().any(|p| (p.k, p.m) == (k, m) && outcome(p).is_ok()));
        }
        for k in [LOWEST - 1, highest + 1] {
            assert!(all.iter().any(|p| (p.k, p.m) == (k, m) && f64::from_bits(p.lambda).abs() < 1.0));
        }
    }
    for m in [17, u16::MAX] {
        assert!(all.iter().any(|p| p.m == m && p.k == 0));
    }
}

#[test]
fn frames_are_18_bytes() {
    let frame = Place { lambda: 0x0102_0304_0506_0708, k: -2, m: 0x0910 }.frame();
    assert_eq!(frame[..8], [8, 7, 6, 5, 4, 3, 2, 1]);
    assert_eq!(frame[8..], [254, 255, 255, 255, 255, 255, 255, 255, 0x10, 9]);
}

#[test]
fn lines_are_sixteen_digits_or_void_and_a_reason() {
    assert_eq!(Place::new(-0.5, 1 << 32, 0).line(), "3fe8000000000000");
    assert_eq!(Place::new(1.0, 0, 0).line(), "void 1");
    assert_eq!(Place::new(zero_divisors::beside_minus_one(513), LOWEST, 0).line(), "void 2");
    assert_eq!(Place::new(zero_divisors::beside_minus_one(4_095), LOWEST, 0).line(), "void 3");
}

#[test]
fn every_list_is_the_same() {
    assert!(places() == places());
}
