//! Damaged inputs for each command but `opm`.

use crate::bytes::{self, board_fields, question_fields, record_fields};
use crate::case::Case;
use crate::chance::Chance;
use crate::commands;
use crate::samples::Samples;
use crate::texts;

/// Returns one to three of the sample questions, so that solving them takes little time.
fn few(chance: &mut Chance, samples: &Samples) -> Vec<u8> {
    let slots: Vec<&[u8]> = samples.questions.chunks(82).collect();
    (0..1 + chance.below(3)).flat_map(|_| chance.pick(&slots).to_vec()).collect()
}

pub fn questions(chance: &mut Chance, samples: &Samples) -> Vec<u8> {
    let good = few(chance, samples);
    let others =
        [&samples.records[..], &samples.questions_list, &samples.board[..600], &samples.message, &good];
    bytes::damaged(chance, &good, &question_fields(&good), &others)
}

pub fn records(chance: &mut Chance, samples: &Samples) -> Vec<u8> {
    let good = chance.pick(&[&samples.records, &samples.records, &samples.refusals]);
    let others = [&samples.questions[..], &samples.questions_list, &samples.board, &samples.message, good];
    bytes::damaged(chance, good, &record_fields(good), &others)
}

pub fn ask_list(chance: &mut Chance, samples: &Samples) -> Case {
    let mut case = Case::of(&["ask", "--csv", "in"]);
    let others = [&samples.questions[..], &samples.records, &samples.messages_list, &samples.message];
    case.files.push(("in", texts::damaged(chance, &samples.questions_list, &others)));
    if chance.one_in(3) {
        (case.words[2], case.input) = ("-".into(), Some("in"));
    }
    case.perhaps(chance, &["--ignore-extra"]);
    case.write(chance);
    case.also = commands::asked;
    case
}

const ASKED: [(&str, &str); 8] = [
    ("--job", "101"),
    ("--r1", "7000,0,0"),
    ("--r2", "0,42164,0"),
    ("--mu", "earth"),
    ("--time", "6h"),
    ("--way", "short"),
    ("--revolutions", "0"),
    ("--revision", "1"),
];

/// Adds options. One or two of them have a damaged value, are left out or are given twice.
pub fn options(chance: &mut Chance, case: &mut Case, given: &[(&str, &str)]) {
    let damaged: Vec<usize> = (0..chance.pick(&[1, 1, 2])).map(|_| chance.below(given.len())).collect();
    for (i, (option, value)) in given.iter().enumerate() {
        match (damaged.contains(&i), chance.below(12)) {
            (true, 0) => {}
            (true, 1) => [option, value, option, value].iter().for_each(|word| case.word(word)),
            (true, 2) => case.value([option.as_bytes(), b"=", &texts::value(chance)].concat()),
            (true, _) => {
                case.word(option);
                case.value(texts::value(chance));
            }
            (false, _) => [option, value].iter().for_each(|word| case.word(word)),
        }
    }
}

pub fn ask_options(chance: &mut Chance, _: &Samples) -> Case {
    let mut case = Case::of(&["ask"]);
    options(chance, &mut case, &ASKED);
    case.write(chance);
    case.also = commands::asked;
    case
}

pub fn answer(chance: &mut Chance, _: &Samples) -> Case {
    let mut case = Case::of(&["answer"]);
    let last = chance.pick(&[4, 5, 6]);
    options(chance, &mut case, &ASKED[1..=last]);
    case.form(chance, &["--json", "--csv"]);
    case.perhaps(chance, &["--detail", "--explain"]);
    case
}

pub fn solve(chance: &mut Chance, samples: &Samples) -> Case {
    let jobs = chance.pick(&["--jobs=1", "--jobs=3"]);
    let mut case = Case::of(&["solve", jobs]);
    let questions = questions(chance, samples);
    case.read(chance, "in", questions);
    case.perhaps(chance, &["--strict"]);
    case.write(chance);
    case.also = commands::solved;
    case
}

pub fn show(chance: &mut Chance, samples: &Samples) -> Case {
    let mut case = Case::of(&["show"]);
    let with_questions = chance.one_in(2);
    if with_questions {
        let good = &samples.questions;
        let others = [&samples.records[..], &samples.questions_list];
        let asked = bytes::damaged(chance, good, &question_fields(good), &others);
        case.files.push(("questions", if chance.one_in(2) { good.clone() } else { asked }));
        case.words.extend(["--questions".into(), "questions".into()]);
    }
    let records =
        if with_questions && chance.one_in(3) { samples.records.clone() } else { records(chance, samples) };
    case.read(chance, "in", records);
    case.form(chance, &["--json", "--csv"]);
    case.perhaps(chance, &["--detail", "--explain"]);
    case
}

pub fn plot(chance: &mut Chance, samples: &Samples) -> Case {
    let mut case = Case::of(&["plot"]);
    let questions = questions(chance, samples);
    case.read(chance, "in", questions);
    match chance.below(6) {
        0 => {}
        1..=3 => case.words.extend(["--slot".into(), chance.pick(&["1", "2", "3", "9"]).into()]),
        4 => case.words.extend(["--job".into(), chance.pick(&["7", "101", "103", "105"]).into()]),
        _ => {
            case.word(chance.pick(&["--slot", "--job"]));
            case.value(texts::value(chance));
        }
    }
    case.write(chance);
    case.also = commands::drawn;
    case
}

pub fn board(chance: &mut Chance, samples: &Samples) -> Case {
    let mut case = Case::of(&["board"]);
    for name in ["first", "second", "third"].iter().take(chance.below(3)) {
        case.files
            .push((name, if chance.one_in(2) { samples.records.clone() } else { records(chance, samples) }));
        case.word(name);
    }
    let last = records(chance, samples);
    case.read(chance, "in", last);
    case.form(chance, &["--bytes", "--json", "--csv"]);
    case.perhaps(chance, &["--strict"]);
    case.write(chance);
    case.also = commands::posted;
    case
}

pub fn stored_board(chance: &mut Chance, samples: &Samples) -> Case {
    let mut case = board(chance, samples);
    let good = chance.pick(&[&samples.board, &samples.board, &samples.void_board]);
    let others = [&samples.records[..], &samples.questions, &samples.questions_list];
    let stored = bytes::damaged(chance, good, &board_fields(good), &others);
    case.files.push(("board", if chance.one_in(4) { good.clone() } else { stored }));
    case.words.extend(["--board".into(), "board".into()]);
    case
}

pub fn check_records(chance: &mut Chance, samples: &Samples) -> Case {
    let mut case = Case::of(&["check"]);
    let records = records(chance, samples);
    case.read(chance, "in", records);
    case.also = commands::shown;
    case
}

pub fn check_questions(chance: &mut Chance, samples: &Samples) -> Case {
    let mut case = Case::of(&["check", "--questions"]);
    let questions = questions(chance, samples);
    case.read(chance, "in", questions);
    case.also = commands::checked;
    case
}

/// A command line that nobody wrote: names, options and values in any order. It names no output.
pub fn wrong_words(chance: &mut Chance, samples: &Samples) -> Case {
    let names =
        ["ask", "solve", "show", "plot", "board", "check", "opm", "answer", "sovle", "--help", "-h", "in"];
    let options =
        ["--jobs", "--strict", "--json", "--csv", "--questions", "--slot", "--board", "--read", "--", "-"];
    let mut case = Case::of(&[]);
    case.files.push(("in", records(chance, samples)));
    for _ in 0..chance.below(5) {
        match chance.below(4) {
            0 => case.value(texts::value(chance)),
            1 => case.word(chance.pick(&options)),
            _ => case.word(chance.pick(&names)),
        }
    }
    case
}
