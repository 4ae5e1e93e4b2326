//! Tests 01's rules for stations, sides and crossings on made-up times.

use super::*;
use crate::time::{time_at, PARABOLA};

fn timed(times: &[f64]) -> Vec<Result<f64, Void>> {
    times.iter().map(|&t| Ok(t)).collect()
}

/// Returns the crossings among a few stations, if no middle has a time.
fn among(times: &[Result<f64, Void>], wanted: f64) -> Crossings {
    crossings_of(times, wanted, |_| Err(Void::Root))
}

/// Returns what the sweep finds if its first void station is station number `i`, counted from 0.
fn void(i: i32, reason: Void) -> Walk {
    Walk::Void(VoidStation { j: i - 4_095, reason })
}

/// Returns the index of the lower station of each crossing, for the wanted time 2.
fn places(times: &[f64]) -> Vec<usize> {
    changes(&timed(times), 2.0).collect()
}

/// Returns a time that is 0 at the lowest station and grows by 1 with each k.
fn slope(k: i64) -> f64 {
    (k - LOWEST) as f64
}

#[test]
fn the_stations() {
    for (m, count, last) in
        [(0, 20_480, 16_384), (1, 8_191, 4_095), (16, 8_191, 4_095), (u16::MAX, 8_191, 4_095)]
    {
        let all: Vec<i64> = stations(m).collect();
        assert_eq!(all.len(), count);
        assert_eq!((all[0], all[count - 1]), (-4_095 << 20, last << 20));
        assert!(all.windows(2).all(|k| k[1] - k[0] == 1 << 20));
    }
}

#[test]
fn the_four_corners() {
    assert_eq!(places(&[1.0, 2.0, 3.0]), [0]);
    assert_eq!(places(&[3.0, 2.0, 1.0]), [1]);
    assert_eq!(places(&[3.0, 2.0, 3.0]), []);
    assert_eq!(places(&[1.0, 2.0, 1.0]), [0, 1]);
    assert_eq!(places(&[4.0, 3.0, 2.0]), []);
}

#[test]
fn equal_stations_in_a_row_are_on_one_side() {
    assert_eq!(places(&[2.0, 2.0, 2.0]), []);
    assert_eq!(places(&[1.0, 2.0, 2.0, 3.0]), [0]);
    assert_eq!(places(&[3.0, 2.0, 2.0, 1.0]), [2]);
    assert_eq!(places(&[]), []);
    assert_eq!(places(&[1.0]), []);
}

/// If the times cross the wanted time twice inside one pair, the pair's ends are on the same side.
#[test]
fn two_roots_inside_one_pair_are_not_seen() {
    let found = crossings_of(&timed(&[3.0, 3.0]), 2.0, |_| Ok(1.0));
    assert_eq!(found, Crossings { brackets: vec![], walk: Walk::Timed });
}

/// A pair with a void station isn't a crossing. The first void station is reported beside the crossings.
#[test]
fn void_stations() {
    let (a, b) = (Ok(1.0), Ok(3.0));
    let [root, divisor, odd] = [Void::Root, Void::Divisor, Void::NotFinite];
    let nothing = |walk| Crossings { brackets: vec![], walk };
    assert_eq!(among(&[a, Err(divisor), b], 2.0), nothing(void(1, divisor)));
    let found = among(&[Err(root), a, b, Err(divisor), a], 2.0);
    assert_eq!((found.brackets.len(), found.walk), (1, void(0, root)));
    assert_eq!(found.brackets[0].lower, LOWEST + SPACING);
    assert_eq!(among(&[Err(odd), Err(root)], 2.0), nothing(void(0, odd)));
    assert_eq!(among(&[a, a, Err(divisor)], 2.0), nothing(void(2, divisor)));
}

/// The first void station is the lowest one, before or after the crossings, whatever the reasons of later ones.
#[test]
fn the_first_void_station_among_crossings() {
    for n in 0..=PLACES {
        for i in 0..=n + 1 {
            let mut times = zigzag(n);
            times.insert(i, Err(Void::Divisor));
            times.push(Err(Void::Range));
            assert_eq!(among(&times, 2.0).walk, void(i as i32, Void::Divisor), "{n} {i}");
        }
    }
}

/// The last station's j is 16,384 without whole revolutions and 4,095 with some.
#[test]
fn the_last_station_may_be_the_only_void_one() {
    for (m, j) in [(0, 16_384), (1, 4_095)] {
        let mut times = vec![Ok(1.0); stations(m).count()];
        *times.last_mut().unwrap() = Err(Void::NotFinite);
        assert_eq!(among(&times, 2.0).walk, Walk::Void(VoidStation { j, reason: Void::NotFinite }));
    }
}

#[test]
fn lines() {
    let b = Bracket { lower: -2, upper: 3, halvings: 20 };
    let line = |n: usize, walk| Crossings { brackets: vec![b; n], walk }.line();
    assert_eq!(line(0, Walk::Timed), "0 timed");
    assert_eq!(line(0, void(0, Void::Range)), "0 void fffff001 1");
    assert_eq!(line(0, void(20_479, Void::NotFinite)), "0 void 00004000 4");
    let bracket = "fffffffffffffffe 0000000000000003 20";
    assert_eq!(line(1, void(4_094, Void::Root)), format!("1 void ffffffff 2 {bracket}"));
    assert_eq!(line(2, Walk::Ninth), format!("2 ninth {bracket} {bracket}"));
}

/// The middles are odd multiples of 2^19, 2^18 and so on above the lower station. The first void middle
/// ends the bisection and isn't counted. The width shows how many halvings came before it.
#[test]
fn a_void_middle_at_every_depth() {
    for depth in 0..=20 {
        let width = 1i64 << (20 - depth);
        let time = |k: i64| ((k - LOWEST) % width == 0).then_some(slope(k)).ok_or(Void::Root);
        for root in [1, 2, 3, 524_287, 524_288, 524_289, 700_001, 1_048_575] {
            let wanted = root as f64;
            let times = timed(&[0.0, SPACING as f64]);
            let b = crossings_of(&times, wanted, time).brackets[0];
            assert_eq!((b.halvings, b.upper - b.lower), (depth, width));
            assert!(slope(b.lower) < wanted && wanted <= slope(b.upper));
        }
    }
}

/// Only the middles that the bisection visits matter.
#[test]
fn a_void_place_beside_the_path_is_not_met() {
    let beside = LOWEST + 3 * SPACING / 4;
    let time = |k: i64| (k != beside).then_some(slope(k)).ok_or(Void::Root);
    let found = crossings_of(&timed(&[0.0, SPACING as f64]), 5.0, time);
    let b = Bracket { lower: LOWEST + 4, upper: LOWEST + 5, halvings: 20 };
    assert_eq!(found.brackets, [b]);
}

/// On a falling slope the lower end isn't below, so a middle equal to the wanted time replaces the lower end.
#[test]
fn a_falling_slope() {
    let fall = |k: i64| Ok(-slope(k));
    let found = crossings_of(&timed(&[0.0, -(SPACING as f64)]), -5.0, fall);
    let b = Bracket { lower: LOWEST + 5, upper: LOWEST + 6, halvings: 20 };
    assert_eq!(found, Crossings { brackets: vec![b], walk: Walk::Timed });
}

#[test]
fn the_bracket_of_a_later_pair() {
    let root = 3 * SPACING + 77;
    let times: Vec<_> = (0..6).map(|i| Ok((i * SPACING) as f64)).collect();
    let found = crossings_of(&times, root as f64, |k| Ok(slope(k)));
    let b = Bracket { lower: LOWEST + root - 1, upper: LOWEST + root, halvings: 20 };
    assert_eq!(found.brackets, [b]);
}

/// Returns times that change sides `n` times.
fn zigzag(n: usize) -> Vec<Result<f64, Void>> {
    (0..=n).map(|i| Ok(if i % 2 == 0 { 1.0 } else { 3.0 })).collect()
}

#[test]
fn eight_crossings_are_listed() {
    let found = among(&zigzag(8), 2.0);
    assert_eq!((found.brackets.len(), found.walk), (PLACES, Walk::Timed));
    let lowers: Vec<i64> = found.brackets.iter().map(|b| b.lower).collect();
    assert_eq!(lowers, (0..8).map(|i| LOWEST + i * SPACING).collect::<Vec<_>>());
}

/// A ninth crossing ends the sweep, wherever a void station is. Eight crossings don't end it.
#[test]
fn nine_crossings_end_the_walk() {
    for n in [9, 10, 40] {
        for (before, after) in [(false, false), (true, false), (false, true)] {
            let mut times = zigzag(n);
            times.splice(0..0, before.then_some(Err(Void::Root)));
            times.extend(after.then_some(Err(Void::Root)));
            let found = among(&times, 2.0);
            assert_eq!((found.brackets.len(), found.walk), (PLACES, Walk::Ninth));
        }
    }
    let mut times = zigzag(8);
    times.push(Err(Void::Root));
    assert_eq!(among(&times, 2.0).walk, void(9, Void::Root));
}

/// No time is below a NaN or −∞, and every time is below ∞, so all stations are on the same side.
#[test]
fn an_odd_wanted_time_makes_no_crossing() {
    for wanted in [f64::NAN, f64::INFINITY, f64::NEG_INFINITY] {
        assert_eq!(among(&zigzag(8), wanted), Crossings { brackets: vec![], walk: Walk::Timed });
    }
}

/// For L = 0.5 without whole revolutions the times fall with k, so each wanted time has one bracket, of
/// width 1 after twenty halvings.
#[test]
fn a_wanted_time_of_a_real_curve() {
    let t = |k| time_at(0.5, k, 0).unwrap();
    let wanted = t(PARABOLA + 12_345);
    let found = crossings(0.5, 0, wanted);
    let [b] = found.brackets[..] else { panic!("{found:?}") };
    assert_eq!((found.walk, b.halvings, b.upper - b.lower), (Walk::Timed, 20, 1));
    assert!(t(b.lower) >= wanted && t(b.upper) < wanted);
}

/// Every station is void if lambda isn't below 1 in size or M is above 16. Then the first one is the lowest one.
#[test]
fn nothing_but_void_stations() {
    for (lambda, m) in [(1.0, 0), (-1.0, 3), (f64::NAN, 0), (0.5, 17)] {
        let all_void = Crossings { brackets: vec![], walk: void(0, Void::Range) };
        assert_eq!(crossings(lambda, m, 1.0), all_void);
    }
}

/// Lambdas close to −1 for which the lowest station is void, by a refused root and by a zero divisor.
#[test]
fn void_stations_of_real_curves() {
    let walk = |ulps: u64, m: u16| crossings(-f64::from_bits(1f64.to_bits() - ulps), m, f64::INFINITY).walk;
    for m in [0, 1, 16] {
        assert_eq!(walk(513, m), void(0, Void::Root));
        assert_eq!(walk(4_095, m), void(0, Void::Divisor));
    }
}
