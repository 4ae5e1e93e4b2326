//! Damaged inputs for `opm`.

use crate::bytes::{self, question_fields, record_fields};
use crate::case::Case;
use crate::cases::options;
use crate::chance::Chance;
use crate::commands;
use crate::samples::{Samples, TEXTS};
use crate::texts;

/// Adds records and questions, of which one or both are damaged, or neither.
fn sources(chance: &mut Chance, case: &mut Case, samples: &Samples) {
    let (mut records, mut questions) = (samples.records.clone(), samples.questions.clone());
    let others = [&samples.message[..], &samples.questions_list, &samples.board];
    let which = chance.below(4);
    if which == 0 || which == 2 {
        records = bytes::damaged(chance, &records, &record_fields(&records), &others);
    }
    if which == 1 || which == 2 {
        questions = bytes::damaged(chance, &questions, &question_fields(&questions), &others);
    }
    case.files.push(("questions", questions));
    case.words.extend(["--questions".into(), "questions".into()]);
    case.read(chance, "in", records);
}

pub fn single(chance: &mut Chance, samples: &Samples) -> Case {
    let mut case = Case::of(&["opm"]);
    sources(chance, &mut case, samples);
    let choice = [("--job", chance.pick(&["101", "102", "103", "7"])), ("--revision", "1"), ("--entry", "1")];
    match chance.one_in(2) {
        true => options(chance, &mut case, &[&TEXTS[..], &choice].concat()),
        false => [&TEXTS[..], &choice].concat().iter().for_each(|(option, value)| {
            case.word(option);
            case.word(value);
        }),
    }
    case.write(chance);
    case.also = commands::messages;
    case
}

pub fn list(chance: &mut Chance, samples: &Samples) -> Case {
    let mut case = Case::of(&["opm", "--creation-date", "2026-11-17T16:00:00", "--list", "list"]);
    sources(chance, &mut case, samples);
    let others = [&samples.questions[..], &samples.questions_list, &samples.message];
    let list = texts::damaged(chance, &samples.messages_list, &others);
    case.files.push(("list", if chance.one_in(5) { samples.messages_list.clone() } else { list }));
    case.perhaps(chance, &["--ignore-extra"]);
    case.words.extend(["--to".into(), chance.pick(&["to", "to", "to/", "to/new", "list/to"]).into()]);
    case.also = commands::messages;
    case
}

pub fn read(chance: &mut Chance, samples: &Samples) -> Case {
    let mut case = Case::of(&["opm", "--read"]);
    let others = [&samples.questions[..], &samples.records, &samples.messages_list, &samples.message];
    let message = match chance.one_in(2) {
        true => bytes::damaged(chance, &samples.message, &[], &others),
        false => texts::damaged(chance, &samples.message, &others),
    };
    case.read(chance, "in", message);
    case.perhaps(chance, &["--json"]);
    case
}
