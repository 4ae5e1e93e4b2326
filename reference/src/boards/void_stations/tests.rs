//! The records and the lists have the outcomes that the rules demand.

use super::*;
use crate::board::{conflict, post, Board, BAD_BOARD, MALFORMED, SIZE};
use crate::boards::{framed, told};
use crate::message::Message;
use crate::record::split;
use crate::wire::part;

/// Returns the outcomes of a list, without the hash at its end.
fn outcomes(list: List) -> String {
    told(&framed(&list)).unwrap().split(' ').next().unwrap().into()
}

/// A form is taken if it has number 12 and a station, or another number in force and no station.
#[test]
fn which_forms_are_taken() {
    let taken: Vec<(u16, usize)> = forms()
        .into_iter()
        .filter(|bytes| Message::read(bytes).is_some())
        .map(|bytes| (u16::from_le_bytes(part(&bytes, COUNT)), bytes.len()))
        .collect();
    assert_eq!(taken, [(1, 16), (2, 16), (5, 16), (11, 16), (12, 22), (13, 16), (14, 16)]);
    let told = outcomes(listed(forms()));
    assert_eq!(told.len(), 132);
    assert_eq!((told.matches('T').count(), told.matches('1').count()), (7, 125));
}

#[test]
fn every_station_is_taken() {
    assert_eq!(outcomes(listed(every_station())), "T".repeat(72));
}

/// All pairs conflict, except the one whose second record is malformed and the one whose records are equal.
#[test]
fn pairs_conflict() {
    for pair in pairs(&mut Random::new(1)) {
        let mut board = vec![0; SIZE];
        let told = pair.each_ref().map(|record| post(&mut board, record));
        let same = pair[0] == pair[1];
        let short = pair[1] == without_station(pair[0].clone());
        assert_eq!(told, [Ok(()), if short { Err(MALFORMED) } else { Ok(()) }]);
        let job = u32::from_le_bytes(part(&pair[0], crate::wire::JOB));
        let held = if same || short { pair[0].clone() } else { conflict(job, 5) };
        assert_eq!(board[..held.len()], held);
    }
}

/// A slot with a malformed record makes the board bad. Only one form is well-formed in a slot and not elsewhere: number
/// 12 with length 18 and 16 bytes, because the zeros after it are its station.
#[test]
fn slots_with_records_of_every_form() {
    let mut r = Random::new(2);
    let count = |records: &[Vec<u8>], r: &mut Random| {
        let told = outcomes(damage::holding(records, r));
        (told.len(), told.matches(&BAD_BOARD.to_string()).count())
    };
    let (all, bad) = count(&forms(), &mut r);
    assert!(all >= 135 && bad == 124, "{all} {bad}");
    assert_eq!(count(&every_station(), &mut r).1, 0);
    let (all, bad) = count(&vec![without_station(refusal(1, 1, 0, 0)); 5], &mut r);
    assert_eq!((all >= 8, bad), (true, 5));
}

#[test]
fn competing_records_meet() {
    let mut r = Random::new(3);
    let (mut conflicts, mut long) = (0, 0);
    for _ in 0..100 {
        let mut board = Board::default();
        competing(&mut r)
            .iter()
            .filter_map(|bytes| Message::read(bytes))
            .for_each(|m| board.take(m).unwrap());
        let slots = board.write();
        conflicts += slots.chunks(crate::board::SLOT).filter(|slot| slot[4] == 4).count();
        long += slots.chunks(crate::board::SLOT).filter(|slot| slot[0] == 18).count();
    }
    println!("{conflicts} conflicts, {long} refusals with number 12");
    assert!(conflicts > 40 && long > 40);
}

#[test]
fn the_records_are_well_formed() {
    let all = records();
    let parts = split(&all);
    assert!(parts.iter().all(|record| Message::read(record).is_some()));
    assert!(parts.iter().filter(|record| record.len() == HEAD + STATION).count() >= 72);
}
