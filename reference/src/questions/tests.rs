//! The list contains every verdict, and 01's worked cases get the right verdicts.

use super::*;
use crate::entrance::judge;
use crate::triangle::{chord, cross, lambda_square, rho, semiperimeter, sigma_square, square};

fn number(q: Question) -> u16 {
    number_in(q, 528)
}

fn number_in(q: Question, room: usize) -> u16 {
    judge(&q.write(), room).err().unwrap_or(0)
}

#[test]
fn every_verdict_occurs() {
    let all = cases();
    let mut counts = [0; 11];
    for case in &all {
        counts[judge(&case.bytes, case.room.into()).err().unwrap_or(0) as usize] += 1;
    }
    println!("{} cases: {counts:?}", all.len());
    assert!(all.len() >= 6000);
    assert!(counts[0] >= 1500, "{counts:?}");
    assert!(counts[1..].iter().all(|&n| n >= 20), "{counts:?}");
    assert!(all.iter().all(|case| case.bytes.len() <= LONGEST));
}

#[test]
fn the_document_s_cases() {
    let d = document();
    assert_eq!(number(d), 0);
    assert_eq!(number(Question { position1: [0.5, 0.0, 0.0], ..d }), 3);
    assert_eq!(number(Question { revolutions: 16, ..d }), 0);
    assert_eq!(number(Question { revolutions: 17, ..d }), 6);
    assert_eq!(number(Question { mu: 0.5, ..d }), 4);
    assert_eq!(number(Question { position2: d.position1, ..d }), 8);
    assert_eq!(number(Question { position2: [2.0, 0.0, 0.0], ..d }), 8);
    assert_eq!(number_in(Question { revolutions: 17, ..d }, 527), 6);
    assert_eq!(number_in(d, 527), 7);
    assert_eq!(number(Question { job: 0, ..d }), 1);
    assert_eq!(judge(&d.write()[..81], 528).err(), Some(1));
    let wanted = judge(&d.write(), 528).unwrap().wanted_time;
    assert!((wanted - 0.634).abs() < 0.001, "{wanted}");
}

/// Returns the questions of the list that pass the checks for numbers 1 to 7.
fn past_seven() -> Vec<Question> {
    let pass = |case: &Case| judge(&case.bytes, case.room.into()).err().is_none_or(|n| n > 7);
    cases().iter().filter(|case| pass(case)).map(|case| Question::read(&case.bytes).unwrap()).collect()
}

/// Counts the questions for which `holds` is true of c, s, r1 and r2.
fn count(all: &[Question], holds: impl Fn(f64, f64, f64, f64) -> bool) -> usize {
    let measure = |q: &&Question| {
        let (r1, r2) = (square(q.position1).sqrt(), square(q.position2).sqrt());
        let c = chord(q.position1, q.position2);
        holds(c, semiperimeter(r1, r2, c), r1, r2)
    };
    all.iter().filter(measure).count()
}

#[test]
fn comparisons_meet_equality_and_both_sides() {
    let all = past_seven();
    let bound = |q: &Question| (square(q.position1) * square(q.position2)) / (1u64 << 40) as f64;
    let tie = |q: &&Question| square(cross(q.position1, q.position2)) == bound(q);
    let ties = all.iter().filter(tie).count();
    let short = count(&all, |c, s, _, _| c / s == 1.0 / 1024.0);
    let below = count(&all, |c, s, _, _| lambda_square(c, s) < 0.0);
    let zero = count(&all, |c, s, _, _| lambda_square(c, s) == 0.0);
    let level = count(&all, |c, _, r1, r2| sigma_square(rho(r1, r2, c)) == 0.0);
    let over = count(&all, |c, _, r1, r2| sigma_square(rho(r1, r2, c)) < 0.0);
    let seen = [ties, short, below, zero, level, over];
    println!("ties, short, lambda below 0, lambda 0, flat, flat below 0: {seen:?}");
    assert!(seen.iter().all(|&n| n > 0), "{seen:?}");
}

#[test]
fn an_accepted_lambda_may_be_a_zero_of_either_sign() {
    let accepted = cases().into_iter().filter_map(|case| judge(&case.bytes, case.room.into()).ok());
    let zeros: Vec<bool> =
        accepted.map(|p| p.triangle.lambda).filter(|&l| l == 0.0).map(f64::is_sign_negative).collect();
    assert!(zeros.contains(&true) && zeros.contains(&false));
}

#[test]
fn frames_are_124_bytes_padded_with_zeros() {
    let frame = Case::new(&[9, 8, 7], 0x0210).frame();
    assert_eq!(frame.len(), 124);
    assert_eq!(frame[..8], [3, 0, 0x10, 2, 9, 8, 7, 0]);
}

#[test]
fn every_list_is_the_same() {
    let bytes = || cases().iter().flat_map(Case::frame).collect::<Vec<u8>>();
    assert!(bytes() == bytes());
}
