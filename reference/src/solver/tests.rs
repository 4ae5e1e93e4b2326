//! The list is as long and as varied as the comparison needs, and takes the proved program little time.

use super::*;
use crate::entrance::{judge, ROOM};
use crate::record::Record;
use crate::solve::Entry;
use crate::sweep::stations;
use crate::time::time_at;
use std::collections::{BTreeMap, BTreeSet};
use std::sync::OnceLock;

/// Returns every whole slot with its record, computed once for all tests.
fn rows() -> &'static [(Slot, Record)] {
    static ROWS: OnceLock<Vec<(Slot, Record)>> = OnceLock::new();
    ROWS.get_or_init(|| slots().into_iter().map(|s| (s, Record::reply(&s))).collect())
}

fn entries(record: &Record) -> &[Entry] {
    record.outcome.as_deref().unwrap_or(&[])
}

#[test]
fn enough_of_every_number_and_of_every_count() {
    let mut tally = BTreeMap::new();
    for (_, record) in rows() {
        let kind = record.outcome.as_ref().map(Vec::len).map_err(|refusal| refusal.number());
        *tally.entry(kind).or_insert(0) += 1;
    }
    println!("{} slots: {tally:?}", rows().len());
    assert!(rows().len() >= 420);
    assert!(tally[&Ok(1)] >= 60 && tally[&Ok(2)] >= 200);
    for number in [1, 2, 3, 4, 5, 6, 8, 9, 10, 11] {
        assert!(tally[&Err(number)] >= 10, "{number}");
    }
    assert_eq!(tally.len(), 12);
}

#[test]
fn every_number_of_revolutions_both_ways() {
    let answered = rows().iter().filter(|(_, record)| record.outcome.is_ok());
    let asked: Vec<Question> = answered.map(|(slot, _)| Question::read(slot).unwrap()).collect();
    let pairs: BTreeSet<(u16, u8)> = asked.iter().map(|q| (q.revolutions, q.way)).collect();
    assert_eq!(pairs.len(), 34);
}

/// Assumes 12 ms for each accepted question without revolutions, and 5.5 ms for each one with revolutions.
#[test]
fn the_proved_program_needs_less_than_eight_seconds() {
    let problems = rows().iter().filter_map(|(slot, _)| judge(slot, ROOM).ok());
    let cost: f64 = problems.map(|p| if p.revolutions == 0 { 0.012 } else { 0.0055 }).sum();
    println!("{cost} s");
    assert!(cost < 8.0, "{cost}");
}

/// Counts the questions whose wanted time equals a station's time, the entries whose ends are equally near
/// to the wanted time, and the entries whose upper end is chosen.
#[test]
fn stations_are_met_and_ends_tie() {
    let (mut met, mut ties, mut upper) = (0, 0, 0);
    for (slot, record) in rows() {
        let Ok(p) = judge(slot, ROOM) else { continue };
        let time = |k: i64| time_at(p.triangle.lambda, k, p.revolutions);
        met += usize::from(stations(p.revolutions).any(|k| time(k) == Some(p.wanted_time)));
        let error = |k: i64| (time(k).unwrap() - p.wanted_time).abs();
        let tie = |e: &&Entry| error(e.lower) == error(e.lower + (1i64 << (20 - e.halvings)));
        ties += entries(record).iter().filter(tie).count();
        upper += entries(record).iter().filter(|e| e.upper_chosen).count();
    }
    println!("stations met: {met}, ties: {ties}, upper ends: {upper}");
    assert!(met >= 60 && ties >= 10 && upper >= 200);
}

#[test]
fn every_halving_ends_at_width_1() {
    assert!(rows().iter().flat_map(|(_, record)| entries(record)).all(|e| e.halvings == 20));
}

/// Draws a lambda that the entrance accepts (c/s isn't below 2^-10), often close to the limit.
fn accepted_lambda(i: u64, r: &mut Random) -> f64 {
    let edge = (1.0 - 1.0 / 1024.0f64).sqrt();
    let size = match i % 3 {
        0 => edge * r.fraction(),
        1 => f64::from_bits(edge.to_bits() - r.below(64)),
        _ => edge - 0.01 * r.fraction(),
    };
    [size, -size][r.below(2) as usize]
}

/// Shows on samples why no question reaches number 12 or 13 or has three entries: every station has a time, and from
/// one station to the next the times first fall and then rise. Number 14 would need sizes that the ranges exclude.
#[test]
fn no_void_station_and_at_most_two_crossings() {
    let mut r = Random::new(13);
    for i in 0..300 {
        let (lambda, m) = (accepted_lambda(i, &mut r), r.below(17) as u16);
        let times: Option<Vec<f64>> = stations(m).map(|k| time_at(lambda, k, m)).collect();
        let steps: Vec<f64> = times.unwrap().windows(2).map(|t| t[1] - t[0]).collect();
        let falling = steps.iter().take_while(|&&step| step <= 0.0).count();
        assert!(steps[falling..].iter().all(|&step| step >= 0.0), "{lambda} {m}");
        assert!(m > 0 || falling == steps.len(), "{lambda}");
    }
}

#[test]
fn the_last_slot_is_short() {
    let all = questions();
    assert_eq!(all.len(), rows().len() * QUESTION_SIZE + SHORT);
    let records = answers();
    assert_eq!(records[..16], [0x0C, 0, 0, 0, 3, 0, 7, 0, 0, 0, 2, 0, 0, 0, 0x0B, 0]);
    assert_eq!(records[records.len() - 16..], [0x0C, 0, 0, 0, 3, 0, 0, 0, 0, 0, 0, 0, 0, 0, 1, 0]);
}

#[test]
fn random_questions_are_mostly_answered_and_fresh() {
    let drawn: Vec<Slot> = random(400, 5).collect();
    let answered = drawn.iter().filter(|slot| Record::reply(&slot[..]).outcome.is_ok()).count();
    assert!(answered > 280, "{answered}");
    assert!(random(400, 5).eq(drawn.iter().copied()));
    assert!(random(10, 6).all(|slot| !drawn.contains(&slot)));
}

#[test]
fn missions_have_moderate_times() {
    let answered = missions(100, 1).filter(|slot| Record::reply(&slot[..]).outcome.is_ok()).count();
    assert!(answered > 90, "{answered}");
}

#[test]
fn every_list_is_the_same() {
    assert!(rows().iter().map(|row| row.0).eq(slots()));
}
