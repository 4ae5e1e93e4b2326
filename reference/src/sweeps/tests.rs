//! The list is as long and as varied as the comparison needs.

use super::void_stations::{Others, Shape};
use super::*;
use crate::sweep::{stations, Crossings, VoidStation, Walk};
use crate::time::{time_at, Void};
use std::collections::{BTreeMap, BTreeSet};
use std::mem::discriminant;
use std::sync::OnceLock;

/// Returns every case with its crossings, computed once for all tests.
fn rows() -> &'static [(Case, Crossings)] {
    static ROWS: OnceLock<Vec<(Case, Crossings)>> = OnceLock::new();
    ROWS.get_or_init(|| cases().into_iter().map(|c| (c, found(&c))).collect())
}

fn found(c: &Case) -> Crossings {
    crossings(f64::from_bits(c.lambda), c.m, f64::from_bits(c.wanted))
}

fn stopped_early(c: &Crossings) -> bool {
    c.brackets.iter().any(|b| b.halvings < 20)
}

#[test]
fn every_number_of_turns_for_320_triangles_and_more() {
    let mut turns: BTreeMap<u64, BTreeSet<u16>> = BTreeMap::new();
    for (case, _) in rows() {
        turns.entry(case.lambda).or_default().insert(case.m);
    }
    let swept = |inside: bool| {
        let whole = |ms: &BTreeSet<u16>| (0..=MOST_TURNS).all(|m| ms.contains(&m));
        turns.iter().filter(|(&l, ms)| whole(ms) && (f64::from_bits(l).abs() < 1.0) == inside).count()
    };
    println!("lambdas with every M: {} below 1 in size, {} others", swept(true), swept(false));
    assert!(swept(true) >= 320 && swept(false) >= 16);
    for m in [17, 18, u16::MAX] {
        assert!(rows().iter().any(|(c, _)| c.m == m));
    }
}

/// Every number of crossings occurs with all stations timed and with void stations, and some sweeps end at a ninth crossing.
#[test]
fn every_count_and_every_walk() {
    let mut tally = BTreeMap::new();
    for (_, c) in rows() {
        let word = ["timed", "void", "ninth"].into_iter().find(|word| c.line().contains(word));
        *tally.entry((c.brackets.len(), word, stopped_early(c))).or_insert(0) += 1;
    }
    println!("{} sweeps", rows().len());
    tally.iter().for_each(|(kind, rows)| println!("crossings, walk, stopped early {kind:?}: {rows}"));
    let at_least = |n: usize, walk: Walk, least: usize| {
        let same = |c: &Crossings| c.brackets.len() == n && discriminant(&c.walk) == discriminant(&walk);
        assert!(rows().iter().filter(|(_, c)| same(c)).count() >= least, "{n} {walk:?}");
    };
    let void = Walk::Void(VoidStation { j: 0, reason: Void::Root });
    for n in 0..=2 {
        at_least(n, Walk::Timed, 500);
        at_least(n, void, 100);
    }
    for n in 3..=8 {
        at_least(n, Walk::Timed, 5);
        at_least(n, void, 10);
    }
    at_least(8, Walk::Ninth, 50);
    assert!(rows().iter().filter(|(_, c)| stopped_early(c)).count() >= 100);
}

/// Returns how many sweeps there are of each shape of void stations, computed once for all tests.
fn void_shapes() -> &'static BTreeMap<Shape, usize> {
    static SHAPES: OnceLock<BTreeMap<Shape, usize>> = OnceLock::new();
    SHAPES.get_or_init(|| {
        let shape = |c: &Case| Curve::new(f64::from_bits(c.lambda), c.m).shape(f64::from_bits(c.wanted));
        let mut tally = BTreeMap::new();
        let untimed = rows().iter().filter(|(_, c)| c.walk != Walk::Timed);
        untimed.filter_map(|(case, _)| shape(case)).for_each(|s| *tally.entry(s).or_insert(0) += 1);
        tally
    })
}

fn has_shape(is: impl Fn(&Shape) -> bool) -> bool {
    void_shapes().keys().any(is)
}

/// With every number of crossings, the first void station is the first station or a later one, with both reasons.
#[test]
fn where_the_first_void_station_is_and_why() {
    void_shapes().iter().for_each(|(shape, rows)| println!("{shape:?}: {rows}"));
    println!("{} shapes", void_shapes().len());
    for crossings in 0..=9 {
        let found = |reason, at_first| {
            has_shape(|s| (s.crossings, s.reason, s.at_first) == (crossings, reason, at_first))
        };
        assert!(found(2, false) && found(2, true) && found(3, false) && found(3, true), "{crossings}");
    }
}

/// The first void station is the only one, or others have another reason.
#[test]
fn whether_other_stations_are_void() {
    for crossings in 0..=2 {
        let found = |reason, at_first, others| {
            has_shape(|s| {
                (s.crossings, s.reason, s.at_first, s.others) == (crossings, reason, at_first, others)
            })
        };
        let both = |reason, at_first| {
            found(reason, at_first, Others::Nowhere) && found(reason, at_first, Others::Different)
        };
        assert!(both(2, false) && both(2, true) && both(3, false) && both(3, true), "{crossings}");
    }
    assert!(has_shape(|s| s.others == Others::Alike && s.reason == 2));
}

/// Crossings are below the first void station and above it. A ninth one is found above the first void station, and
/// with every void station above it.
#[test]
fn which_crossings_come_before_the_first_void_station() {
    for crossings in 1..=9 {
        let found = |below| has_shape(|s| s.crossings == crossings && s.below == below);
        assert!(found(true) && found(false), "{crossings}");
    }
    assert!(has_shape(|s| s.crossings == 9 && !s.above));
}

/// Reports whether some station's time equals the wanted time: between two below it, between two above it,
/// between one of each, and at an end.
fn met(case: &Case) -> [bool; 4] {
    let (lambda, wanted) = (f64::from_bits(case.lambda), f64::from_bits(case.wanted));
    let times: Vec<_> = stations(case.m).map(|k| time_at(lambda, k, case.m)).collect();
    let between = |is: fn(f64, f64, f64) -> bool| {
        times.windows(3).any(|t| match *t {
            [Some(a), Some(b), Some(c)] => b == wanted && is(a, b, c),
            _ => false,
        })
    };
    let at_end = [times.first(), times.last()].contains(&Some(&Some(wanted)));
    let slope = between(|a, b, c| a < b && b < c || a > b && b > c);
    [between(|a, b, c| a < b && c < b), between(|a, b, c| a > b && c > b), slope, at_end]
}

/// 01's corner cases occur, in sweeps that don't end at a ninth crossing.
#[test]
fn stations_that_meet_the_wanted_time() {
    let walked = rows().iter().filter(|(_, c)| c.walk != Walk::Ninth);
    let all: Vec<_> = walked.map(|(case, _)| met(case)).collect();
    let counts: [usize; 4] = std::array::from_fn(|i| all.iter().filter(|met| met[i]).count());
    println!("met between two below, two above, one of each, at an end: {counts:?}");
    assert!(counts.iter().all(|&n| n >= 50), "{counts:?}");
}

#[test]
fn the_width_tells_the_halvings() {
    for b in rows().iter().flat_map(|(_, c)| &c.brackets) {
        assert_eq!(b.upper - b.lower, 1 << (20 - b.halvings));
    }
}

#[test]
fn odd_wanted_times_occur() {
    for odd in curve::ODD {
        assert!(rows().iter().filter(|(c, _)| c.wanted == odd.to_bits()).count() >= 20, "{odd}");
    }
}

#[test]
fn a_frame_is_24_bytes() {
    let frame = Case { lambda: 0x0102_0304_0506_0708, wanted: 0x1112_1314_1516_1718, m: 0x0910 }.frame();
    assert_eq!(frame[..8], [8, 7, 6, 5, 4, 3, 2, 1]);
    assert_eq!(frame[8..16], [0x18, 0x17, 0x16, 0x15, 0x14, 0x13, 0x12, 0x11]);
    assert_eq!(frame[16..], [0x10, 9, 0, 0, 0, 0, 0, 0]);
}

#[test]
fn every_list_is_the_same() {
    assert!(rows().iter().map(|(case, _)| *case).eq(cases()));
}
