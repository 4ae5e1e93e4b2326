use super::*;
use crate::entrance::ROOM;
use crate::questions::document;
use crate::time::{x_of, Void, HIGHEST, LOWEST, PARABOLA};
use crate::triangle::wanted_time;
use crate::wire::Question;

fn solved(q: Question) -> Result<Vec<Entry>, u16> {
    solve(&q.write(), ROOM).map_err(Refusal::number)
}

/// Returns a question with 01's triangle and the time that the place k takes.
fn taking(k: i64, revolutions: u16) -> Question {
    let q = Question { revolutions, ..document() };
    let p = judge(&q.write(), ROOM).unwrap();
    let scale = wanted_time(p.mu, p.triangle.semiperimeter, 1.0);
    Question { time: time_at(p.triangle.lambda, k, revolutions).unwrap() / scale, ..q }
}

fn chosen(e: &Entry) -> i64 {
    e.lower + if e.upper_chosen { 1i64 << (20 - e.halvings) } else { 0 }
}

#[test]
fn the_document_s_question_has_too_little_time() {
    assert_eq!(solved(document()), Err(11));
}

#[test]
fn a_refusal_of_the_entrance_comes_first() {
    assert_eq!(solved(Question { revolutions: 17, ..document() }), Err(6));
    assert_eq!(solve(&document().write(), ROOM - 1), Err(Refusal::Number(7)));
    assert_eq!(solve(&document().write()[..81], ROOM), Err(Refusal::Number(1)));
}

/// A quarter of the unit circle. There 1 − x² is s/2.
#[test]
fn one_entry_without_whole_turns() {
    let entries =
        solved(Question { revolutions: 0, time: std::f64::consts::FRAC_PI_2, ..document() }).unwrap();
    let [e] = entries[..] else { panic!("{entries:?}") };
    let near = |v: Vector, w: Vector| (0..3).all(|i| (v[i] - w[i]).abs() < 1e-9);
    assert!(near(e.velocities[0], [0.0, 1.0, 0.0]) && near(e.velocities[1], [-1.0, 0.0, 0.0]), "{e:?}");
    let x = x_of(chosen(&e));
    let semiperimeter = (2.0 + 2f64.sqrt()) / 2.0;
    assert!((1.0 - x * x - semiperimeter / 2.0).abs() < 1e-9, "{x}");
}

#[test]
fn two_entries_with_whole_turns_the_lower_first() {
    for m in 1..=16 {
        let k = PARABOLA / 2 + 12_345;
        let entries = solved(taking(k, m)).unwrap();
        assert_eq!(entries.len(), 2);
        assert!(entries[0].lower < 0 && (chosen(&entries[1]) - k).abs() <= 1, "{m}: {entries:?}");
    }
}

/// Returns the same flight four times as far out. Times are eight times as long there, and the new time is
/// the given share of that.
fn larger(q: Question, share: f64) -> Question {
    let [position1, position2] = [q.position1, q.position2].map(|p| p.map(|x| 4.0 * x));
    Question { position1, position2, time: 8.0 * q.time * share, ..q }
}

/// Times beyond those of the first and the last station have no crossing.
#[test]
fn times_past_the_ends() {
    let longest = taking(LOWEST, 0);
    assert!(solved(Question { time: longest.time * 0.999, ..longest }).is_ok());
    assert_eq!(solved(Question { time: longest.time * 1.001, ..longest }), Err(11));
    let shortest = taking(HIGHEST, 0);
    assert_eq!(solved(shortest), Err(5));
    assert!(solved(larger(shortest, 1.001)).is_ok());
    assert_eq!(solved(larger(shortest, 0.999)), Err(11));
}

/// Without a crossing, a void station gives number 12, which returns that station's j and its reason.
#[test]
fn no_crossings_too_many_and_voids() {
    let b = Bracket { lower: 0, upper: 1, halvings: 20 };
    let refusal = |n: usize, walk| check_crossings(&Crossings { brackets: vec![b; n], walk }).err();
    for (j, reason, number) in
        [(-4_095, Void::Range, 1), (-1, Void::Root, 2), (0, Void::Divisor, 3), (16_384, Void::NotFinite, 4)]
    {
        let void = Walk::Void(VoidStation { j, reason });
        assert_eq!(refusal(0, void), Some(Refusal::Void { j, reason: number }));
        assert_eq!((refusal(1, void), refusal(8, void)), (None, None));
    }
    assert_eq!(refusal(0, Walk::Timed), Some(Refusal::Number(11)));
    assert_eq!(refusal(8, Walk::Ninth), Some(Refusal::Number(13)));
    assert_eq!(refusal(8, Walk::Timed), None);
}

#[test]
fn the_number_of_a_refusal() {
    assert_eq!(Refusal::Void { j: 7, reason: 2 }.number(), 12);
    assert_eq!(Refusal::Number(14).number(), 14);
}

#[test]
fn a_component_that_is_not_finite() {
    let good = Entry { lower: 0, halvings: 20, upper_chosen: false, velocities: [[1.0; 3]; 2] };
    assert_eq!(check_velocities(vec![good; 8]), Ok(vec![good; 8]));
    for i in 0..6 {
        for odd in [f64::NAN, f64::INFINITY, f64::NEG_INFINITY] {
            let mut bad = good;
            bad.velocities[i / 3][i % 3] = odd;
            assert_eq!(check_velocities(vec![good, bad]), Err(14));
        }
    }
}

#[test]
fn the_nearer_end_and_the_lower_of_a_tie() {
    let b = Bracket { lower: 5, upper: 6, halvings: 20 };
    let ends = |lower: f64, upper: f64| chooses_upper(&b, 2.0, |k| Some(if k == 5 { lower } else { upper }));
    assert!(!ends(1.5, 3.0) && !ends(3.0, 1.0) && !ends(1.0, 3.0));
    assert!(ends(1.0, 2.5) && ends(3.0, 1.5) && ends(3.0, 2.0));
    assert!(!ends(2.0, 1.0));
}
