//! The well-formed files that are damaged.

use crate::folder::Folder;
use std::ffi::OsString;
use std::path::Path;

pub const PROGRAM: &str = env!("CARGO_BIN_EXE_lambert-cli");

/// The texts of an orbit message, as options.
pub const TEXTS: [(&str, &str); 8] = [
    ("--creation-date", "2026-11-17T16:00:00"),
    ("--originator", "TUG CO-OP"),
    ("--object-name", "TUG 3"),
    ("--object-id", "2024-031B"),
    ("--center-name", "EARTH"),
    ("--ref-frame", "EME2000"),
    ("--time-system", "UTC"),
    ("--epoch", "2026-11-18T06:00:00"),
];

pub struct Samples {
    pub questions: Vec<u8>,
    pub questions_list: Vec<u8>,
    pub messages_list: Vec<u8>,
    pub records: Vec<u8>,
    /// Refusals with every number. Those with number 12 have stations and reasons of all kinds.
    pub refusals: Vec<u8>,
    pub board: Vec<u8>,
    /// A board with one refusal 12.
    pub void_board: Vec<u8>,
    pub message: Vec<u8>,
}

fn refusal(job: u8, number: u8) -> Vec<u8> {
    vec![12, 0, 0, 0, 3, 0, job, 0, 0, 0, 1, 0, 0, 0, number, 0]
}

/// Returns the record of a refusal 12.
fn incomplete(job: u8, j: i32, reason: u16) -> Vec<u8> {
    let head = [18, 0, 0, 0, 3, 0, job, 0, 0, 0, 1, 0, 0, 0, 12, 0];
    [&head[..], &j.to_le_bytes(), &reason.to_le_bytes()].concat()
}

fn refusals() -> Vec<u8> {
    let plain = (1..=14).filter(|number| *number != 12).flat_map(|number| refusal(number, number));
    let voids = [(-4095, 1), (-1, 2), (0, 3), (16_384, 4), (16_385, 0), (i32::MIN, 5), (i32::MAX, u16::MAX)];
    let voids = (101..).zip(voids).flat_map(|(job, (j, reason))| incomplete(job, j, reason));
    plain.chain(voids).collect()
}

impl Samples {
    /// Makes the records of the sample questions, a board with a conflict and an orbit message.
    pub fn make(folder: &Folder) -> Samples {
        let questions = include_bytes!("../../../samples/questions").to_vec();
        folder.fill(&[("questions", questions.clone())]);
        let made = |words: &[&str], input: &str| {
            let words: Vec<OsString> = words.iter().map(OsString::from).collect();
            let found = folder.run(Path::new(PROGRAM), &words, Some(input)).expect("the program ends");
            assert_eq!(found.status, Some(0), "{words:?}");
            found.out
        };
        let records = made(&["solve"], "questions");
        let conflict = [&records[..], &refusal(102, 11)].concat();
        let mut void_board = incomplete(9, -4095, 1);
        void_board.resize(64 * 528, 0);
        folder.fill(&[
            ("questions", questions.clone()),
            ("records", records.clone()),
            ("conflict", conflict),
        ]);
        let texts: Vec<&str> = TEXTS.iter().flat_map(|(option, text)| [*option, *text]).collect();
        let opm = [&["opm", "--questions", "questions", "--job", "101"], &texts[..]].concat();
        Samples {
            board: made(&["board", "--bytes"], "conflict"),
            message: made(&opm, "records"),
            questions,
            questions_list: include_bytes!("../../../samples/questions.csv").to_vec(),
            messages_list: include_bytes!("../../../samples/messages.csv").to_vec(),
            records,
            refusals: refusals(),
            void_board,
        }
    }
}
