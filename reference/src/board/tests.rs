//! Tests each rule of the board (02, A1) on examples.

use super::*;
use crate::message::COUNT;
use crate::record::Record;
use crate::solve::{Entry as Solution, Refusal};
use crate::wire::{put, with};

/// Returns a refusal of 16 bytes.
fn refusal(job: u32, revision: u32, number: u16) -> Vec<u8> {
    Record { job, revision, outcome: Err(Refusal::Number(number)) }.write()
}

/// Returns a refusal of 22 bytes with number 12.
fn void(job: u32, revision: u32, j: i32, reason: u16) -> Vec<u8> {
    Record { job, revision, outcome: Err(Refusal::Void { j, reason }) }.write()
}

fn answer(job: u32, revision: u32, n: usize) -> Vec<u8> {
    let velocities = [[1.0, f64::NAN, 0.0], [2.0, 3.0, 4.0]];
    let entry = Solution { lower: 5, halvings: 20, upper_chosen: true, velocities };
    Record { job, revision, outcome: Ok(vec![entry; n]) }.write()
}

/// Returns the board after the given records, none of which may be refused.
fn board(records: &[Vec<u8>]) -> Vec<u8> {
    let mut bytes = vec![0; SIZE];
    records.iter().for_each(|record| assert_eq!(post(&mut bytes, record), Ok(())));
    bytes
}

/// Returns a board with the given bytes in its first slots.
fn slots(filled: &[Vec<u8>]) -> Vec<u8> {
    let mut bytes = vec![0; SIZE];
    filled.iter().enumerate().for_each(|(i, slot)| put(&mut bytes, SLOT * i, slot));
    bytes
}

/// Returns the board's refusal of a record, if any, and checks that a refusal leaves the board unchanged.
fn refused(board: &[u8], record: &[u8]) -> Option<u8> {
    let mut after = board.to_vec();
    let refusal = post(&mut after, record).err();
    assert!(refusal.is_none() || after == board);
    refusal
}

/// Reports whether the bytes are refused as a board (B0), and checks that this doesn't depend on the posted record.
fn bad(bytes: &[u8]) -> bool {
    let records = [refusal(9, 9, 9), answer(1, 0, 8), vec![], refusal(0, 0, 1)];
    let first = records.each_ref().map(|record| refused(bytes, record) == Some(BAD_BOARD));
    assert!(first.iter().all(|&b| b == first[0]));
    first[0]
}

fn full() -> Vec<u8> {
    board(&(1..=64).map(|job| refusal(10 * job, 1, 11)).collect::<Vec<_>>())
}

#[test]
fn sizes() {
    assert_eq!((SLOTS, SLOT, SIZE), (64, 528, 33_792));
    assert_eq!(answer(1, 1, 8).len(), SLOT);
}

#[test]
fn one_record_for_each_job_in_rising_order() {
    let (a, b, c) = (answer(3, 0, 8), refusal(0x0100, 5, 11), answer(u32::MAX, u32::MAX, 1));
    assert_eq!(board(&[c.clone(), a.clone(), b.clone()]), slots(&[a, b, c]));
}

#[test]
fn a_higher_revision_replaces_a_lower_one() {
    for (low, high) in [
        (answer(4, 1, 8), refusal(4, 2, 9)),
        (refusal(4, 1, 9), answer(4, 2, 2)),
        (refusal(4, 1, 9), refusal(4, 2, 9)),
        (answer(4, 0x7FFF_FFFF, 3), answer(4, 0x8000_0000, 1)),
        (refusal(4, 0, 14), answer(4, u32::MAX, 1)),
    ] {
        assert_eq!(board(&[low.clone(), high.clone()]), slots(std::slice::from_ref(&high)));
        assert_eq!(board(&[high.clone(), low]), slots(&[high]));
    }
}

#[test]
fn the_same_bytes_again_change_nothing() {
    for record in [refusal(4, 1, 9), answer(4, 1, 8)] {
        assert_eq!(board(&[record.clone(), record.clone()]), slots(&[record]));
    }
}

#[test]
fn different_records_of_a_revision_conflict() {
    let mut other = answer(4, 7, 2);
    *other.last_mut().unwrap() ^= 0x80;
    for different in [answer(4, 7, 1), refusal(4, 7, 11), other] {
        let expected = slots(&[vec![10, 0, 0, 0, 4, 0, 4, 0, 0, 0, 7, 0, 0, 0]]);
        assert_eq!(board(&[answer(4, 7, 2), different.clone()]), expected);
        assert_eq!(board(&[different, answer(4, 7, 2)]), expected);
    }
}

/// Two refusals with number 12 are different if only j or only the reason differs.
#[test]
fn different_void_stations_of_a_revision_conflict() {
    let first = void(4, 7, -4_095, 1);
    for other in [void(4, 7, -4_094, 1), void(4, 7, -4_095, 2), refusal(4, 7, 11), answer(4, 7, 1)] {
        assert_eq!(board(&[first.clone(), other.clone()]), slots(&[conflict(4, 7)]));
        assert_eq!(board(&[other, first.clone()]), slots(&[conflict(4, 7)]));
    }
    assert_eq!(board(&[first.clone(), first.clone()]), slots(std::slice::from_ref(&first)));
    let higher = void(4, 8, 16_384, 4);
    assert_eq!(board(&[first.clone(), higher.clone()]), slots(std::slice::from_ref(&higher)));
    assert_eq!(board(&[higher.clone(), first]), slots(&[higher]));
}

/// Number 12 has a void station and no other number has one, in a posted record and in a slot.
#[test]
fn a_void_station_belongs_to_number_12_alone() {
    let long = void(4, 7, -1, 2);
    assert!(!bad(&slots(std::slice::from_ref(&long))));
    assert_eq!(refused(&[0; SIZE], &long), None);
    let mut malformed: Vec<Vec<u8>> =
        [1u16, 11, 13, 14].map(|number| with(&long, COUNT, &number.to_le_bytes())).into();
    malformed.extend([
        refusal(4, 7, 12),
        with(&long, LENGTH, &[12]),
        with(&refusal(4, 7, 11), LENGTH, &[18]),
    ]);
    for record in malformed {
        assert_eq!(refused(&[0; SIZE], &record), Some(MALFORMED), "{record:?}");
        assert!(bad(&slots(&[record])));
    }
}

#[test]
fn any_void_station_is_held() {
    for j in [0, -1, i32::MIN, i32::MAX] {
        let held = [0, 1, 4, 5, u16::MAX].map(|reason| void(1 + u32::from(reason), 7, j, reason));
        assert_eq!(board(&held), slots(&held));
    }
}

#[test]
fn only_a_higher_revision_clears_a_conflict() {
    let both = [refusal(4, 7, 1), refusal(4, 7, 2)];
    let then = |record: &Vec<u8>| board(&[&both[..], std::slice::from_ref(record)].concat());
    for ignored in [refusal(4, 7, 1), refusal(4, 7, 2), refusal(4, 7, 3), answer(4, 7, 1), answer(4, 6, 1)] {
        assert_eq!(then(&ignored), slots(&[conflict(4, 7)]));
    }
    for higher in [refusal(4, 8, 1), answer(4, u32::MAX, 8)] {
        assert_eq!(then(&higher), slots(&[higher]));
    }
}

#[test]
fn every_order_with_repeats_ends_in_the_same_board() {
    let messages = [
        refusal(2, 1, 1),
        refusal(2, 1, 2),
        answer(2, 0, 2),
        answer(1, 5, 1),
        refusal(1, 6, 3),
        refusal(9, 0, 4),
    ];
    let expected = slots(&[refusal(1, 6, 3), conflict(2, 1), refusal(9, 0, 4)]);
    let mut orders = 0;
    for code in 0..6usize.pow(6) {
        let order: Vec<usize> = (0..6).map(|i| code / 6usize.pow(i) % 6).collect();
        if (0..6).all(|i| order.contains(&i)) {
            let repeated = order.iter().flat_map(|&i| [i, order[0]]);
            assert_eq!(board(&repeated.map(|i| messages[i].clone()).collect::<Vec<_>>()), expected);
            orders += 1;
        }
    }
    assert_eq!(orders, 720);
}

#[test]
fn a_65th_job_is_refused_and_a_known_one_taken() {
    let full = full();
    for job in [1, 15, 635, 641, u32::MAX] {
        assert_eq!(refused(&full, &refusal(job, 5, 1)), Some(NO_SLOT));
        assert_eq!(refused(&full, &answer(job, 5, 8)), Some(NO_SLOT));
    }
    for job in [10, 320, 640] {
        let mut after = full.clone();
        assert_eq!(post(&mut after, &answer(job, 2, 8)), Ok(()));
        assert_eq!(post(&mut after, &answer(job, 2, 7)), Ok(()));
        let at = SLOT * (job as usize / 10 - 1);
        assert_eq!(after[at..at + 14], conflict(job, 2));
    }
    assert_eq!(refused(&full[..SIZE - SLOT], &refusal(1, 5, 1)), Some(BAD_BOARD));
}

/// Starts with a bad board that is full, and a malformed record with job 0, and removes these faults one by
/// one. Each time the refusal must be that of the first check that still fails.
#[test]
fn the_order_of_the_refusals() {
    let full = full();
    let mut damaged = full.clone();
    damaged[SIZE - 1] = 1;
    let (malformed, nobody, new) = (refusal(0, 1, 15), refusal(0, 1, 14), refusal(5, 1, 14));
    for record in [&malformed, &nobody, &new] {
        assert_eq!(refused(&damaged, record), Some(BAD_BOARD));
    }
    for board in [&full, &vec![0; SIZE]] {
        assert_eq!(refused(board, &malformed), Some(MALFORMED));
        assert_eq!(refused(board, &nobody), Some(JOB_ZERO));
    }
    assert_eq!(refused(&full, &new), Some(NO_SLOT));
    assert_eq!(refused(&[0; SIZE], &new), None);
}

#[test]
fn a_conflict_is_never_posted() {
    assert_eq!(refused(&[0; SIZE], &conflict(4, 7)), Some(MALFORMED));
    assert_eq!(refused(&[0; SIZE], &slots(&[conflict(4, 7)])[..SLOT]), Some(MALFORMED));
}

#[test]
fn a_board_has_its_size() {
    for size in [0, 1, SLOT, SIZE - SLOT, SIZE - 1, SIZE + 1, SIZE + SLOT] {
        assert!(bad(&vec![0; size]), "{size}");
    }
    assert!(!bad(&[0; SIZE]));
}

#[test]
fn slots_rise_and_free_ones_are_last() {
    let (a, b, c) = (refusal(1, 9, 9), conflict(2, 3), answer(3, 0, 8));
    assert!(!bad(&slots(&[a.clone(), b.clone(), c.clone()])));
    assert!(bad(&slots(&[b.clone(), a.clone(), c.clone()])));
    assert!(bad(&slots(&[a.clone(), c.clone(), b.clone()])));
    assert!(bad(&slots(&[a.clone(), a.clone()])));
    assert!(bad(&slots(&[a.clone(), refusal(1, 10, 9)])));
    assert!(bad(&slots(&[conflict(2, 3), conflict(2, 4)])));
    assert!(bad(&slots(&[vec![], a.clone()])));
    assert!(bad(&slots(&[a, vec![], c])));
}

#[test]
fn zeros_follow_what_a_slot_holds() {
    for held in [refusal(1, 1, 1), void(1, 1, 1, 1), answer(1, 1, 7), conflict(1, 1), vec![]] {
        let mut bytes = slots(&[held.clone(), refusal(2, 2, 2)][..usize::from(!held.is_empty()) * 2]);
        for at in held.len()..SLOT {
            bytes[at] = 1;
            assert!(bad(&bytes), "{at}");
            bytes[at] = 0;
        }
        assert!(!bad(&bytes));
    }
    let mut last = vec![0; SIZE];
    last[SIZE - 1] = 0x80;
    assert!(bad(&last));
}

#[test]
fn job_0_is_not_held() {
    for held in [refusal(0, 1, 1), void(0, 1, 1, 1), answer(0, 1, 1), conflict(0, 1)] {
        assert!(bad(&slots(&[held])));
    }
}

#[test]
fn a_conflict_has_its_length_and_its_kind() {
    for (at, value) in
        [(0, 9), (0, 11), (0, 12), (1, 1), (3, 1), (4, 0), (4, 1), (4, 2), (4, 3), (4, 5), (5, 4)]
    {
        let mut held = conflict(1, 1);
        held[at] = value;
        assert!(bad(&slots(&[held])), "{at} {value}");
    }
}

#[test]
fn no_malformed_record_is_held() {
    let long = [u32::MAX, u32::MAX - 3, 524, 525].map(u32::to_le_bytes).map(|b| b.to_vec());
    let mut chosen = answer(1, 1, 8);
    chosen[16 + 64 * 7 + 12] = 2;
    let others = [refusal(1, 1, 15), refusal(1, 1, 0), answer(1, 1, 0), chosen];
    for held in long.into_iter().chain(others) {
        assert!(bad(&slots(&[held])));
    }
}

#[test]
fn what_is_written_is_read() {
    let held = [answer(3, 0, 8), refusal(3, 0, 1), refusal(8, 8, 8)];
    let bytes = board(&held);
    let read = Board::read(&bytes).unwrap();
    assert_eq!(read.write(), bytes);
    assert_eq!(read.0[&3], Held::Conflict { job: 3, revision: 0 });
    assert_eq!(read.0[&8], Held::Record(Message { job: 8, revision: 8, bytes: refusal(8, 8, 8) }));
    assert_eq!(Board::default().write(), vec![0; SIZE]);
}
