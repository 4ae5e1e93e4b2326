//! The lists contain every outcome, and for up to 64 jobs every order of the same messages ends in the same board.

use super::*;
use crate::board::{Board, Held, BAD_BOARD, JOB_ZERO, MALFORMED, SIZE};
use crate::hash::hash;
use crate::message::Message;
use crate::record::{split, HEAD, STATION};
use stage::{Stage, ROOM};
use std::collections::BTreeMap;

/// Counts each character that occurs before the hashes.
fn tally(lines: &str) -> BTreeMap<char, usize> {
    let mut counts = BTreeMap::new();
    let outcomes = lines.lines().flat_map(|line| line.split(' ').next().unwrap().chars());
    outcomes.for_each(|c| *counts.entry(c).or_default() += 1);
    counts
}

#[test]
fn every_outcome_in_a_small_file() {
    let (frames, lines) = (frames(), lines());
    let counts = tally(&lines);
    println!("{} bytes, {} lists: {counts:?}", frames.len(), lines.lines().count());
    assert!(frames.len() < 1_500_000 && (380..420).contains(&lines.lines().count()));
    assert!("T0123".chars().all(|c| counts[&c] >= 100), "{counts:?}");
    assert_eq!(counts.len(), 5);
}

#[test]
fn a_line_of_each_step() {
    let steps = [
        Step::Post(messages::refusal(3, 1, &mut Random::new(1))),
        Step::Post(vec![1, 2]),
        Step::Set(SIZE as u32 - 1, 7),
        Step::Post(vec![]),
        Step::Lend(2),
        Step::Post(vec![]),
        Step::End,
        Step::Lend(u32::MAX),
        Step::End,
        Step::End,
    ];
    let ends = [&[12, 0][..], &vec![0; ROOM], &vec![0; SIZE]].map(|bytes| format!(" {:016x}\n", hash(bytes)));
    assert_eq!(told(&framed(&steps)), Some(["T100", &ends[0], &ends[1], &ends[2]].concat()));
}

#[test]
fn what_is_no_step() {
    for bytes in [&[1][..], &[2, 0, 7], &[1, 4], &[0xFC, 0xFF], &[0xFE, 0xFF, 0, 0, 0, 0], &[0xFD, 0xFF, 1]] {
        assert_eq!(told(bytes), None);
    }
    assert_eq!(told(&[]), Some(String::new()));
    assert_eq!(Step::Post(vec![9, 8, 7]).frame(), [3, 0, 9, 8, 7]);
    assert_eq!(Step::Set(0x0102, 9).frame(), [0xFE, 0xFF, 2, 1, 0, 0, 9]);
    assert_eq!(Step::Lend(0x0102).frame(), [0xFD, 0xFF, 2, 1, 0, 0]);
    assert_eq!(Step::End.frame(), [0xFF, 0xFF]);
}

/// Returns the hash of the final board for each order of the messages.
fn boards(messages: &[Vec<u8>], r: &mut Random) -> Vec<String> {
    let frames: Vec<u8> = posted(messages, r).iter().flat_map(|list| framed(list)).collect();
    let lines = told(&frames).unwrap();
    lines.lines().map(|line| line.split(' ').next_back().unwrap().to_string()).collect()
}

#[test]
fn every_order_ends_in_one_board() {
    let mut r = Random::new(1);
    for i in 0..400 {
        let faults = [None, Some(3)][i % 2];
        let sound = match i {
            0..180 => few(&mut r),
            180..360 => void_stations::competing(&mut r),
            _ => crowd(25 + i / 10, &mut r),
        };
        let ends = boards(&with_faults(sound, faults, &mut r), &mut r);
        assert_eq!(ends.len(), 4);
        assert!(ends.iter().all(|end| *end == ends[0]), "{i}");
    }
}

/// With more than 64 jobs, the contents of the full board depend on which jobs came first.
#[test]
fn the_order_decides_beyond_64_jobs() {
    let mut r = Random::new(2);
    let messages = crowd(70, &mut r);
    let ends = boards(&messages, &mut r);
    assert!(ends[0] != ends[1]);
}

/// With few jobs, messages compete often: some jobs end in a conflict, others in a record.
#[test]
fn messages_meet() {
    let (mut conflicts, mut records) = (0, 0);
    let mut r = Random::new(3);
    for _ in 0..100 {
        let mut board = Board::default();
        for message in few(&mut r) {
            board.take(Message::read(&message).unwrap()).unwrap();
        }
        conflicts += board.held().filter(|held| matches!(held, Held::Conflict { .. })).count();
        records += board.held().filter(|held| matches!(held, Held::Record(_))).count();
    }
    println!("{conflicts} conflicts, {records} records");
    assert!(conflicts > 80 && records > 80);
}

#[test]
fn faults_are_faults() {
    let mut r = Random::new(4);
    let void = void_stations::refusal(5, 5, -1, 2);
    for base in [refusal(5, 5, &mut r), void, answer(5, 5, 1, &mut r), answer(5, 5, 8, &mut r)] {
        let faults = malformed::faults(&base, &mut r);
        println!("{} faults", faults.len());
        assert!(faults.len() > 50);
        let refused = |bytes: &[u8]| crate::board::post(&mut [0; SIZE], bytes);
        assert!(faults.iter().all(|bytes| refused(bytes) == Err(MALFORMED) && bytes.len() <= 1024));
        assert_eq!(refused(&malformed::nobody(&base)), Err(JOB_ZERO));
    }
}

/// Most damage is found, and after the repairs the board is valid.
#[test]
fn damaged_boards_are_mended() {
    let mut r = Random::new(5);
    let mut all = BTreeMap::new();
    for _ in 0..200 {
        let list = damage::list(20, &mut r);
        let mut stage = Stage::new();
        for step in &list[..list.len() - 1] {
            let told = stage.play(step);
            *all.entry(told).or_insert(0) += 1;
        }
        assert!(Board::read(&stage.state[..SIZE]).is_some());
    }
    println!("{all:?}");
    assert!(all[&BAD_BOARD.to_string()] > 2000 && all["T"] > 2000, "{all:?}");
}

#[test]
fn the_stream_and_its_board() {
    let stream = records();
    let all = split(&stream);
    println!("{} bytes, {} records", stream.len(), all.len());
    assert!((280..320).contains(&all.len()) && all.iter().all(|record| record.len() <= 528));
    let sound: Vec<Message> = all.iter().filter_map(|record| Message::read(record)).collect();
    assert!(sound.len() + 20 < all.len());
    assert!(sound.iter().any(|message| message.job == 0));
    let held = Board::read(&board()).unwrap();
    println!("{} jobs held", held.held().count());
    assert!((56..64).contains(&held.held().count()));
    assert!(held.held().filter(|h| matches!(h, Held::Conflict { .. })).count() > 20);
    assert!(held.held().any(|h| matches!(h, Held::Record(message) if message.bytes.len() == HEAD + STATION)));
    assert!(held.held().any(|h| matches!(h, Held::Record(message) if message.bytes.len() == SLOT)));
}

#[test]
fn fresh_lists_differ_by_seed() {
    let all: Vec<Vec<u8>> = random(60, 5).collect();
    assert!(random(60, 5).eq(all.iter().cloned()));
    assert!(random(60, 6).all(|list| !all.contains(&list)));
    let counts = tally(&told(&all.concat()).unwrap());
    assert!("T012".chars().all(|c| counts[&c] >= 10), "{counts:?}");
}

#[test]
fn every_list_is_the_same() {
    assert!(frames() == frames() && records() == records());
}
