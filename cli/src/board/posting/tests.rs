use super::*;
use crate::wire::slots::BOARD;
use crate::wire::ROOM;
use std::io::{self, Cursor, Read};

/// Returns the record of a refusal of revision 1, with another number than 12.
pub fn refusal(job: u8, number: u8) -> Vec<u8> {
    vec![12, 0, 0, 0, 3, 0, job, 0, 0, 0, 1, 0, 0, 0, number, 0]
}

/// Returns the record of a refusal 12 of revision 1.
pub fn incomplete(job: u8, j: i32, reason: u16) -> Vec<u8> {
    let head = [18, 0, 0, 0, 3, 0, job, 0, 0, 0, 1, 0, 0, 0, 12, 0];
    [&head[..], &j.to_le_bytes(), &reason.to_le_bytes()].concat()
}

/// Returns a board whose slots hold these records. The records must be in the order of their jobs.
pub fn holding(records: &[Vec<u8>]) -> Vec<u8> {
    let mut board = vec![0; BOARD];
    board
        .chunks_mut(ROOM)
        .zip(records)
        .for_each(|(slot, record)| slot[..record.len()].copy_from_slice(record));
    board
}

/// Returns an answer of revision 1 with transfers at x = 0 and these velocities v1 along x. Their v2 are (0, 3, 4).
pub fn answer(job: u8, v1: &[f64]) -> Vec<u8> {
    let n = v1.len() as u8;
    let mut bytes = (12 + 64 * u32::from(n)).to_le_bytes().to_vec();
    bytes.extend([2, 0, job, 0, 0, 0, 1, 0, 0, 0, n, 0]);
    for v in v1 {
        bytes.extend([0; 16]);
        [*v, 0.0, 0.0, 0.0, 3.0, 4.0].iter().for_each(|part| bytes.extend(part.to_le_bytes()));
    }
    bytes
}

fn input(bytes: impl Read + Send + 'static) -> Result<Input, Stop> {
    Ok(Input { name: "input".into(), bytes: Box::new(bytes), file: None })
}

/// Posts the records of inputs, each with its name, to a board. The stored board is called old.board.
pub fn posted(board: Vec<u8>, inputs: Vec<(&str, Result<Input, Stop>)>) -> Posting {
    let mut posting = Posting::on(board, "old.board".into());
    inputs.into_iter().for_each(|(name, input)| posting.post_all(name.into(), input));
    posting
}

/// Posts the bytes of files, each with its name, to an empty board.
pub fn of_files(files: &[(&str, Vec<u8>)]) -> Posting {
    let inputs = files.iter().map(|(name, bytes)| (*name, input(Cursor::new(bytes.clone()))));
    posted(vec![0; BOARD], inputs.collect())
}

/// `why` finds a reason for each record that the library refuses.
#[test]
fn each_refusal_has_its_place_and_its_reason() {
    let mut board = vec![0; BOARD];
    (1..=64).for_each(|job| assert_eq!(post(&mut board, &refusal(job, 11)), TAKEN));
    for (record, at, words) in [
        (vec![0; 4], 0, "B1, malformed: length is 0, but no record is shorter than 12"),
        (refusal(1, 15), 14, "B1, malformed: number is 15, not 1 to 14"),
        (refusal(0, 15), 14, "B1, malformed: number is 15, not 1 to 14"),
        (refusal(0, 1), 6, "B2, job is 0: a board holds the outcomes of numbered jobs"),
        (refusal(65, 1), 0, "B3, no free slot for job 65: the board holds 64 other jobs"),
    ] {
        let before = board.clone();
        let number = post(&mut board, &record);
        assert_eq!(why(number, &record), (at, words.to_string()));
        assert!(board == before, "a refusal changes nothing");
    }
}

/// Length 18 goes with number 12 and with nothing else.
#[test]
fn a_refusal_12_without_its_void_station_is_malformed() {
    let mut board = vec![0; BOARD];
    for (record, words) in [
        (refusal(1, 12), "B1, malformed: length is 12, but refusal 12 has the length 18"),
        (
            [&incomplete(1, 0, 1)[..14], &[11, 0], &[0; 6]].concat(),
            "B1, malformed: length is 18, but refusal 11 has the length 12",
        ),
    ] {
        let number = post(&mut board, &record);
        assert_eq!((number, why(MALFORMED, &record)), (MALFORMED, (0, words.to_string())));
    }
    assert!(board == [0; BOARD]);
}

/// The board judges neither the station nor the reason.
#[test]
fn a_refusal_12_is_posted_whatever_it_names() {
    let records = [incomplete(1, -4095, 1), incomplete(2, i32::MAX, 0), incomplete(3, i32::MIN, u16::MAX)];
    assert!(of_files(&[("a", records.concat())]).board == holding(&records));
    let both = of_files(&[("a", incomplete(1, 5, 2)), ("b", incomplete(1, 5, 3))]);
    assert_eq!(both.board[4], 4, "a conflict");
    // A stored refusal 12 without its void station is not that of a board.
    assert_eq!(post(&mut holding(&[refusal(1, 12)]), &[]), NO_BOARD);
    assert_ne!(post(&mut holding(&records), &[]), NO_BOARD);
}

/// Gives some bytes, and then every read fails.
struct Failing(Cursor<Vec<u8>>);

impl Read for Failing {
    fn read(&mut self, buffer: &mut [u8]) -> io::Result<usize> {
        match self.0.read(buffer)? {
            0 => Err(io::Error::other("the disk is gone")),
            n => Ok(n),
        }
    }
}

#[test]
fn a_failing_read_loses_no_other_record() {
    let failing = || input(Failing(Cursor::new([refusal(1, 11), refusal(2, 13)].concat())));
    let good = |job| input(Cursor::new(refusal(job, 9)));
    let posting = posted(vec![0; BOARD], vec![("a", good(3)), ("b", failing()), ("c", good(4))]);
    let all = [refusal(1, 11), refusal(2, 13), refusal(3, 9), refusal(4, 9)].concat();
    assert!(posting.board == of_files(&[("all", all)]).board);
    let missing = posting.tally.missing();
    assert_eq!(missing.as_deref(), Some("b could not be read to its end"));
    let place = |job| posting.origins.of(job).map(|origin| origin.records[0].place);
    let at = |number, byte| Some(Place::Input { number, byte });
    assert_eq!([place(3), place(2), place(4)], [at(0, 0), at(1, 16), at(2, 0)]);
    let posting = posted(vec![0; BOARD], vec![("a", Stop::said("cannot open it")), ("b", good(4))]);
    assert_eq!(posting.tally.missing().as_deref(), Some("a could not be read to its end"));
    assert!(posting.origins.of(4).is_some());
}

#[test]
fn what_is_not_records_is_not_posted() {
    let cut = [refusal(1, 11), refusal(2, 11)[..15].to_vec()].concat();
    let mut board = vec![0; BOARD];
    post(&mut board, &refusal(9, 11));
    let text = b"these are words".to_vec();
    let posting = of_files(&[("text", text), ("cut", cut), ("board", board), ("good", refusal(3, 11))]);
    let words = "text is text, not records; cut could not be read to its end; \
                 board is a board, not records";
    assert_eq!(posting.tally.missing().as_deref(), Some(words));
    assert!(posting.board == of_files(&[("good", [refusal(1, 11), refusal(3, 11)].concat())]).board);
}

/// A board without records is not incomplete: it is what an empty day gives.
#[test]
fn an_input_without_bytes_is_not_missing() {
    let posting = of_files(&[("none", Vec::new()), ("good", refusal(3, 11)), ("again", Vec::new())]);
    assert_eq!(posting.tally.missing(), None);
    assert!(posting.board == of_files(&[("good", refusal(3, 11))]).board);
}
