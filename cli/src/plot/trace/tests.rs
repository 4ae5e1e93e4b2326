use super::*;
use crate::plot::curve::Curve;

/// A curve with as many stations as a question without whole revolutions has.
fn stations(time: impl Fn(usize) -> Result<f64, Reason>) -> Vec<Place> {
    (0..20_480).map(|i| ((i as f64 - 4095.0) / 4096.0, time(i))).collect()
}

fn traced(stations: Vec<Place>) -> (Trace, Axes) {
    let curve = Curve { wanted: 2.0, stations, chosen: Vec::new() };
    let axes = Axes::of(&curve, 100.0);
    (trace(&curve.stations, &axes), axes)
}

/// The heights of a path's points.
fn heights(path: &str) -> Vec<f64> {
    let numbers: Vec<f64> = path.replace('M', " ").split_whitespace().map(|n| n.parse().unwrap()).collect();
    numbers.chunks(2).map(|point| point[1]).collect()
}

#[test]
fn one_station_across_the_wanted_time_is_seen() {
    for i in [0, 1, 9_999, 20_478, 20_479] {
        let (trace, axes) = traced(stations(|at| Ok(if at == i { 1.0 } else { 3.0 })));
        let below = heights(&trace.path).into_iter().filter(|y| *y > axes.down(2.0)).count();
        assert!(below >= 1, "station {i}");
        assert!(trace.voids.is_empty());
    }
}

/// Returns a time, or this reason if the place is void.
fn time_unless(void: bool, reason: u16) -> Result<f64, Reason> {
    Some(3.0).filter(|_| !void).ok_or(Reason(reason))
}

#[test]
fn one_void_station_is_marked_and_breaks_the_path() {
    for (i, reason) in [(0, 1), (1, 2), (9_999, 3), (20_478, 4), (20_479, 9)] {
        let (trace, axes) = traced(stations(|at| time_unless(at == i, reason)));
        let across = axes.across((i as f64 - 4095.0) / 4096.0);
        assert_eq!(trace.voids.len(), 1, "station {i}");
        let VoidColumns { from, to, reasons } = &trace.voids[0];
        assert!(*from <= across && across <= *to);
        assert_eq!(*reasons, BTreeSet::from([Reason(reason)]));
    }
    let (trace, _) = traced(stations(|at| time_unless(at / 2_000 == 4, 1)));
    assert_eq!((trace.path.matches('M').count(), trace.voids.len()), (2, 1));
}

/// A column of the picture has about 71 stations.
#[test]
fn other_reasons_begin_other_columns() {
    let (trace, axes) = traced(stations(|at| match at {
        5_000..6_000 => Err(Reason(4)),
        6_000..7_000 => Err(Reason(2)),
        8_000 => Err(Reason(3)),
        8_001 => Err(Reason(1)),
        _ => Ok(3.0),
    }));
    let reasons: Vec<Vec<u16>> =
        trace.voids.iter().map(|columns| columns.reasons.iter().map(|reason| reason.0).collect()).collect();
    assert_eq!(reasons, [&[4][..], &[2, 4], &[2], &[1, 3]]);
    assert!(trace.voids[..3].windows(2).all(|pair| pair[0].to == pair[1].from));
    let width = |columns: &VoidColumns| columns.to - columns.from;
    assert_eq!((width(&trace.voids[1]), width(&trace.voids[3])), (1.0, 1.0));
    assert!(axes.across((8_000.0 - 4095.0) / 4096.0) < trace.voids[3].to);
}

#[test]
fn a_picture_stays_small() {
    let wild = |i: usize| match i {
        i if i.is_multiple_of(7) => Err(Reason(i as u16 % 5)),
        i => Ok(if i.is_multiple_of(2) { 1.5e-7 } else { 2.5e9 }),
    };
    let (trace, _) = traced(stations(wild));
    assert!(trace.path.len() + 90 * trace.voids.len() < 60_000, "{}", trace.path.len());
    assert_eq!(traced(stations(|_| Err(Reason(1)))).0.path, "");
}
