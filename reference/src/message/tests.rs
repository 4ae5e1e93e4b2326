use super::*;
use crate::solve::{Entry, Refusal};
use crate::wire::{with, KIND, LENGTH};

/// Returns a refusal of 16 bytes.
fn refusal(number: u16) -> Vec<u8> {
    Record { job: 7, revision: 2, outcome: Err(Refusal::Number(number)) }.write()
}

/// Returns a refusal of 22 bytes with number 12.
fn void(j: i32, reason: u16) -> Vec<u8> {
    Record { job: 7, revision: 2, outcome: Err(Refusal::Void { j, reason }) }.write()
}

fn answer(n: usize) -> Vec<u8> {
    let entry = Entry { lower: -1, halvings: 20, upper_chosen: true, velocities: [[1.0, f64::NAN, -0.0]; 2] };
    Record { job: 7, revision: 2, outcome: Ok(vec![entry; n]) }.write()
}

fn sound(bytes: &[u8]) -> bool {
    Message::read(bytes).is_some()
}

#[test]
fn what_it_says_and_its_bytes() {
    for bytes in [refusal(11), void(-4_095, 1), answer(1), answer(8)] {
        assert_eq!(Message::read(&bytes), Some(Message { job: 7, revision: 2, bytes }));
    }
}

#[test]
fn numbers_in_force() {
    for number in 0..=u16::MAX {
        let short = (1..=14).contains(&number) && number != 12;
        assert_eq!(sound(&refusal(number)), short, "{number}");
        let long = with(&void(-1, 2), COUNT, &number.to_le_bytes());
        assert_eq!(sound(&long), number == 12, "{number}");
    }
}

/// Number 12 needs length 18 and 22 bytes, and every other number length 12 and 16 bytes.
#[test]
fn length_and_size_of_number_12() {
    let long = void(-1, 2);
    for number in 0..=16u16 {
        for (size, length) in
            [(16, 12u32), (16, 18), (22, 12), (22, 18), (22, 17), (21, 17), (23, 19), (28, 24)]
        {
            let mut bytes = with(&with(&long, COUNT, &number.to_le_bytes()), LENGTH, &length.to_le_bytes());
            bytes.resize(size, 0);
            let own = if number == 12 { (22, 18) } else { (16, 12) };
            assert_eq!(
                sound(&bytes),
                (size, length) == own && (1..=14).contains(&number),
                "{number} {size} {length}"
            );
        }
    }
}

#[test]
fn a_void_station_is_not_judged() {
    for j in [0, 1, -1, -4_095, -4_096, 16_384, 16_385, i32::MIN, i32::MAX] {
        assert!([0, 1, 2, 3, 4, 5, 256, u16::MAX].into_iter().all(|reason| sound(&void(j, reason))), "{j}");
    }
}

#[test]
fn entries_in_force() {
    for n in 0..20 {
        assert_eq!(sound(&answer(n)), (1..=8).contains(&n), "{n}");
    }
}

#[test]
fn the_count_is_the_size_s_own() {
    for n in (0..=u16::MAX).filter(|&n| n != 3) {
        assert!(!sound(&with(&answer(3), COUNT, &n.to_le_bytes())), "{n}");
    }
}

#[test]
fn only_two_kinds() {
    for kind in 0..=u16::MAX {
        let sort = |bytes: Vec<u8>| sound(&with(&bytes, KIND, &kind.to_le_bytes()));
        let found = [sort(answer(2)), sort(refusal(2)), sort(void(1, 2))];
        assert_eq!(found, [kind == 2, kind == 3, kind == 3], "{kind}");
    }
}

#[test]
fn only_one_length() {
    for bytes in [refusal(1), void(1, 2), answer(1), answer(8)] {
        let own = bytes.len() as u32 - 4;
        for length in (0..700).chain([u32::MAX, u32::MAX - 3, own << 8, own << 16 | own]) {
            let found = sound(&with(&bytes, LENGTH, &length.to_le_bytes()));
            assert_eq!(found, length == own, "{length} for {own}");
        }
    }
}

/// Every other size is malformed, even if the length matches that size.
#[test]
fn only_one_size() {
    for bytes in [refusal(1), void(1, 2), answer(1), answer(8)] {
        for size in (0..700).filter(|&size| size != bytes.len()) {
            let mut other = bytes.clone();
            other.resize(size, 0);
            assert!(!sound(&other), "{size}");
            if size >= 4 {
                assert!(!sound(&with(&other, LENGTH, &(size as u32 - 4).to_le_bytes())), "{size}");
            }
        }
    }
}

#[test]
fn a_chosen_end_is_0_or_1_in_every_entry() {
    for i in 0..8 {
        let end = |chosen: u32| sound(&with(&answer(8), HEAD + ENTRY * i + CHOSEN, &chosen.to_le_bytes()));
        assert!(end(0) && end(1));
        assert!(![2, 3, 256, 257, 1 << 16, 1 << 24, 1 << 31, u32::MAX].into_iter().any(end), "{i}");
    }
}

/// The board takes an entry whatever its other bytes are.
#[test]
fn nothing_else_of_an_entry_is_judged() {
    for at in (0..ENTRY).filter(|at| !(CHOSEN..CHOSEN + 4).contains(at)) {
        assert!(sound(&with(&answer(2), HEAD + at, &[0xFF])), "{at}");
    }
}

#[test]
fn job_0_is_well_formed() {
    let bytes = Record { job: 0, revision: 0, outcome: Err(Refusal::Number(1)) }.write();
    assert_eq!(Message::read(&bytes).map(|m| m.job), Some(0));
}
