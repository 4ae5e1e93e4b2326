use super::*;
use crate::board::posting::tests::{answer, of_files, refusal};
use crate::terminal::Colour;

const PLAIN: Look = Look { columns: None, colour: Colour(false), explain: false };

fn said(records: &[Vec<u8>], look: &Look) -> Vec<String> {
    lines(&of_files(&[("a", records.concat())]), look).lines().map(String::from).collect()
}

#[test]
fn only_the_notes_that_apply_are_given() {
    let explained = Look { explain: true, ..PLAIN };
    let slots = |words: &str| format!("{words} in conflict");
    assert_eq!(said(&[], &PLAIN), [slots("0 of 64 slots filled: 0 answered, 0 refused, 0")]);
    let one = slots("1 of 64 slots filled: 0 answered, 1 refused, 0");
    assert_eq!(said(&[refusal(1, 11)], &PLAIN), [&one[..], NO_MEANING]);
    assert_eq!(said(&[refusal(1, 11)], &explained), [one]);
    let one = slots("1 of 64 slots filled: 1 answered, 0 refused, 0");
    assert_eq!(said(&[answer(1, &[1.0])], &PLAIN), [&one[..], NO_SURFACE]);
    assert_eq!(said(&[answer(1, &[f64::NAN])], &PLAIN), [&one[..], NO_SURFACE]);
    let both = [refusal(1, 11), answer(2, &[1.0]), refusal(0, 1)];
    let all = slots("2 of 64 slots filled: 1 answered, 1 refused, 0");
    let last = "INCOMPLETE: 1 of 3 records has job 0 (B2)";
    assert_eq!(said(&both, &PLAIN), [&all[..], NO_SURFACE, NO_MEANING, last]);
    assert_eq!(said(&both, &explained), [&all[..], NO_SURFACE, last]);
}

/// The lines under a conflict give the transfers of its records, but `--explain` gives no meaning of its refusals.
#[test]
fn the_records_of_a_conflict_count_as_transfers() {
    let one = "1 of 64 slots filled: 0 answered, 0 refused, 1 in conflict";
    assert_eq!(said(&[refusal(1, 11), answer(1, &[1.0])], &PLAIN), [one, NO_SURFACE]);
    assert_eq!(said(&[refusal(1, 11), refusal(1, 13)], &PLAIN), [one]);
    let replaced = [answer(1, &[1.0]), refusal(1, 11)].concat();
    let mut higher = refusal(1, 11);
    higher[10] = 2;
    assert!(!said(&[replaced, higher], &PLAIN).iter().any(|line| line == NO_SURFACE));
}

#[test]
fn notes_are_broken_at_the_width() {
    let found = said(&[refusal(1, 11), answer(2, &[1.0])], &Look { columns: Some(50), ..PLAIN });
    assert!(found.iter().all(|line| line.len() <= 50), "{found:?}");
    let words: Vec<&str> = found.iter().map(|line| line.trim()).collect();
    assert!(words.join(" ").ends_with(&format!("0 in conflict {NO_SURFACE} {NO_MEANING}")), "{words:?}");
}
