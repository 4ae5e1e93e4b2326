//! Measures how many posts a second take place on boards full of the longest records, full of the shortest records, and empty.

use super::{ours, record, theirs, TAKEN};
use crate::timing;
use reference::board::{NO_SLOT, SIZE, SLOTS};
use reference::message::MOST_ENTRIES;
use reference::random::Random;
use std::cell::RefCell;

/// A group of posts: the board before each post, the records, and the result that each post must have.
struct Sort {
    what: &'static str,
    board: Vec<u8>,
    records: Vec<Vec<u8>>,
    told: u8,
}

/// Prints the speed of each group. The board is restored before each post; that time is also measured alone and subtracted.
pub fn time() {
    for Sort { what, board, records, told } in sorts() {
        let lent = RefCell::new(board.clone());
        let posted = |post: fn(&mut [u8], &[u8]) -> u8, record: &[u8]| {
            let mut lent = lent.borrow_mut();
            lent.copy_from_slice(&board);
            u64::from(post(&mut lent, record))
        };
        let operands: Vec<&[u8]> = records.iter().map(Vec::as_slice).collect();
        assert!(operands.iter().all(|record| posted(ours, record) == u64::from(told)), "{what}");
        let [proved, reference, restoring] = timing::nanoseconds(
            &operands,
            [&|r| posted(ours, r), &|r| posted(theirs, r), &|r| posted(|_, _| TAKEN, r)],
        );
        report(what, operands.len(), [proved - restoring, reference - restoring], restoring);
    }
}

fn report(what: &str, count: usize, [ours, theirs]: [f64; 2], restoring: f64) {
    println!("a post of {what}, {count} records, the best of {} rounds:", timing::ROUNDS);
    println!("  proved     {:8.0} a second", 1e9 / ours);
    println!("  reference  {:8.0} a second", 1e9 / theirs);
    println!(
        "  ratio      {:8.2}, without the {restoring:.0} ns that restoring the board takes",
        ours / theirs
    );
}

/// Returns the groups. A full board holds the even jobs from 2 on, so that the odd jobs belong between them.
fn sorts() -> [Sort; 6] {
    let mut random = Random::new(15);
    let mut records = |first: u32, revision: u32, entries: usize| -> Vec<Vec<u8>> {
        let jobs = (0..SLOTS as u32).map(|i| first + 2 * i);
        jobs.map(|job| record(job, revision, entries as u64, &mut random)).collect()
    };
    let [held, higher] = [1, 2].map(|revision| records(2, revision, MOST_ENTRIES));
    let new = records(1, 1, MOST_ENTRIES);
    let short = records(2, 1, 0);
    let [full, but_one, refusals, empty] = [&held[..], &held[1..], &short, &[]].map(board_of);
    let front = vec![new[0].clone(); SLOTS];
    let sort = |what, board: &[u8], records, told| Sort { what, board: board.to_vec(), records, told };
    [
        sort("a known job with a higher revision, to a full board", &full, higher, TAKEN),
        sort("a known job with the same bytes, to a full board", &full, held.clone(), TAKEN),
        sort("a new job, refused by a full board", &full, new, NO_SLOT),
        sort("a new job before the 63 others of a board", &but_one, front, TAKEN),
        sort("a known job with the same bytes, to a board of 64 refusals", &refusals, short, TAKEN),
        sort("any job, to an empty board", &empty, held, TAKEN),
    ]
}

fn board_of(records: &[Vec<u8>]) -> Vec<u8> {
    let mut board = vec![0; SIZE];
    for record in records {
        assert_eq!(theirs(&mut board, record), TAKEN);
    }
    board
}
