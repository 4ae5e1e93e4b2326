//! Random posts to two boards, one kept by the proved code and one by the reference.

use super::{ours, record, theirs};
use reference::board::{BAD_BOARD, SIZE};
use reference::random::Random;

/// The number of posts to a board before it is emptied.
const LIST: u64 = 1_000;
/// The number of different jobs. It is more than a board holds, and job 0 is one of them.
const JOBS: u64 = 72;

pub fn compare(count: u64) -> bool {
    let mut random = Random::new(16);
    let mut boards = [vec![0; SIZE], vec![0; SIZE]];
    let (mut records, mut refused) = (Vec::new(), [0; 4]);
    for i in 0..count {
        if i % LIST == 0 {
            boards.iter_mut().for_each(|board| board.fill(0));
            records.clear();
        }
        let record = next(&records, &mut random);
        let damage = (random.below(SIZE as u64) as usize, u8::from(random.below(20) == 0) << random.below(8));
        flip(&mut boards, damage);
        let [first, second] = &mut boards;
        let told = [ours(first, &record), theirs(second, &record)];
        if told[0] != told[1] || first != second {
            println!("post {i}: proved {}, reference {}; the record is {record:02x?}", told[0], told[1]);
            return false;
        }
        if told[0] == BAD_BOARD {
            flip(&mut boards, damage);
        }
        if let Some(count) = refused.get_mut(usize::from(told[0])) {
            *count += 1;
        }
        records.push(record);
    }
    println!("post: {count} posts, {refused:?} of them refused B0 to B3, every number and every byte equal");
    true
}

/// Returns a new record in most cases. Otherwise returns an earlier record: unchanged, cut short, or with one bit flipped.
fn next(records: &[Vec<u8>], random: &mut Random) -> Vec<u8> {
    let sort = random.below(8);
    if sort > 2 || records.is_empty() {
        let (job, revision) = (random.below(JOBS) as u32, random.below(4) as u32);
        return record(job, revision, random.below(9), random);
    }
    let mut record = records[random.below(records.len() as u64) as usize].clone();
    let at = random.below(record.len().max(1) as u64) as usize;
    match sort {
        0 => {}
        1 => record.truncate(at),
        _ => record.iter_mut().skip(at).take(1).for_each(|byte| *byte ^= 1 << random.below(8)),
    }
    record
}

/// Flips bits of one byte in both boards. A second call with the same arguments restores the boards.
fn flip(boards: &mut [Vec<u8>; 2], (at, bits): (usize, u8)) {
    boards.iter_mut().for_each(|board| board[at] ^= bits);
}
