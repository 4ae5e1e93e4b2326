use super::*;
use crate::proved::{post, TAKEN};
use crate::wire::form::{ENTRY, HEAD, VOID_STATION};
use crate::wire::slots::BOARD;

/// Numbers that look random. The high bits of each step are used.
struct Random(u64);

impl Random {
    fn below(&mut self, end: u64) -> u64 {
        self.0 = self.0.wrapping_mul(6_364_136_223_846_793_005).wrapping_add(1_442_695_040_888_963_407);
        (self.0 >> 33) % end
    }

    /// Returns a record of one of `jobs` jobs, among them job 0. One in ten is malformed.
    fn record(&mut self, jobs: u64) -> Vec<u8> {
        let (job, revision) = (self.below(jobs) as u32, self.below(4) as u32);
        let n = self.below(3) as usize;
        let number = if self.below(10) == 0 { 15 } else { 11 + self.below(3) as u16 };
        let (kind, last) = if n == 0 { (3u16, number) } else { (2, n as u16) };
        let after = if (kind, last) == (3, 12) { VOID_STATION } else { ENTRY * n };
        let mut bytes = (12 + after as u32).to_le_bytes().to_vec();
        bytes.extend(kind.to_le_bytes());
        bytes.extend(job.to_le_bytes());
        bytes.extend(revision.to_le_bytes());
        bytes.extend(last.to_le_bytes());
        bytes.resize(HEAD + after, 0);
        let at = if n == 0 { HEAD } else { HEAD + 16 + 8 * self.below(6) as usize };
        if after > 0 {
            bytes[at] = self.below(2) as u8;
        }
        bytes
    }
}

/// Fails unless the origins have exactly the jobs of the board, with its revisions, records and conflicts, and each kept record
/// is the first of its bytes among those of `came`, at the place that is kept.
fn in_step(board: &[u8], origins: &Origins, came: &[Vec<u8>], stored: &[u8]) {
    assert_eq!(filled(board).count(), origins.0.len());
    for slot in filled(board) {
        let origin = origins.of(slot.job).expect("an origin");
        assert_eq!(origin.revision, slot.revision);
        let conflict = origin.conflict_in.is_some() || origin.records.len() == 2;
        assert_eq!(conflict, slot.held == Held::Conflict);
        if !conflict {
            assert_eq!(origin.records[0].bytes, slot.bytes);
        }
        for kept in &origin.records {
            let first = came.iter().position(|record| *record == kept.bytes);
            let of_stored = filled(stored).find(|held| held.bytes == kept.bytes).map(|held| held.slot);
            let place = match of_stored {
                Some(slot) => Place::Stored { slot },
                None => Place::Input { number: 3, byte: first.expect("a record that came") as u64 },
            };
            assert_eq!(kept.place, place);
        }
        let differ: Vec<_> = came.iter().filter(|record| told(record) == (slot.job, slot.revision)).collect();
        let neither =
            differ.iter().filter(|record| origin.records.iter().all(|kept| kept.bytes != ***record));
        assert_eq!(origin.more, neither.count() as u64, "all records of the revision are kept or counted");
    }
}

fn told(record: &[u8]) -> (u32, u32) {
    (u32_at(record, 6), u32_at(record, 10))
}

/// Posts random records to the board and checks the origins after each of them.
fn check(stored: &[u8], jobs: u64, seed: u64) -> Vec<u8> {
    let (mut board, mut origins, mut random) = (stored.to_vec(), Origins::stored(stored), Random(seed));
    let mut came = Vec::new();
    for i in 0..300 {
        let record = random.record(jobs);
        if post(&mut board, &record) == TAKEN {
            origins.note(&board, Place::Input { number: 3, byte: i }, &record);
            came.push(record);
        } else {
            came.push(vec![0; 16]);
        }
        in_step(&board, &origins, &came, stored);
    }
    board
}

#[test]
fn the_origins_keep_in_step_with_the_board() {
    let mut conflicts = 0;
    for seed in 0..10 {
        for jobs in [3, 20, 70, 200] {
            let board = check(&[0; BOARD], jobs, seed);
            let again = check(&board, jobs, seed + 100);
            conflicts += filled(&again).filter(|slot| slot.held == Held::Conflict).count();
        }
    }
    assert!(conflicts > 100, "the records conflict often enough: {conflicts}");
}
