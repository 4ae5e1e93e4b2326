//! Every refusal, the order of any two, and what the writer leaves alone.

use super::super::tests::{answer, message as right, written, R1, TEXTS, V1};
use super::*;
use crate::message::{CHOSEN, COUNT};
use crate::record::{ENTRY, HEAD};
use crate::solve::Refusal;
use crate::wire::{with, JOB, KIND, LENGTH};

/// The number of entries of the answer in these tests.
const N: u64 = 3;

/// The arguments of a call.
#[derive(Clone)]
struct Call {
    answer: Vec<u8>,
    entry: u64,
    r1: Vector,
    texts: Vec<u8>,
    room: usize,
}

/// Returns a call that is taken.
fn taken() -> Call {
    let answer = answer(7, &[[0.5; 3], V1, [-2.0; 3]]);
    Call { answer, entry: 2, r1: R1, texts: TEXTS.to_vec(), room: right().len() }
}

/// Returns the outcome of a call. If it is a refusal, the buffer must be untouched.
fn outcome(call: &Call) -> Result<usize, u8> {
    let (outcome, out) = written(&call.answer, call.entry, call.r1, &call.texts, call.room);
    if outcome.is_err() {
        assert!(out.iter().all(|&b| b == 0xB7));
    }
    outcome
}

/// The number of a refusal, and a change that gives a call its fault.
type Fault = (u8, fn(&mut Call));

/// A fault for each refusal, in the order of the checks.
const FAULTS: [Fault; 5] = [
    (1, |call| call.answer[KIND] = 4),
    (5, |call| call.texts[0] = b' '),
    (6, |call| call.entry = N + 1),
    (7, |call| call.r1[1] = f64::NAN),
    (8, |call| call.room -= 1),
];

#[test]
fn every_set_of_faults_gives_the_first() {
    for set in 0..1 << FAULTS.len() {
        let mut call = taken();
        let present: Vec<_> = FAULTS.iter().enumerate().filter(|(i, _)| set >> i & 1 == 1).collect();
        present.iter().for_each(|(_, (_, fault))| fault(&mut call));
        let expected = present.first().map_or(Ok(right().len()), |(_, (number, _))| Err(*number));
        assert_eq!(outcome(&call), expected, "{set:b}");
    }
}

#[test]
fn b1_malformed_or_kind_3() {
    let good = taken().answer;
    let refused = |refusal| Record { job: 7, revision: 2, outcome: Err(refusal) }.write();
    let (refusal, void) = (refused(Refusal::Number(11)), refused(Refusal::Void { j: -1, reason: 2 }));
    let conflict = crate::board::conflict(7, 2);
    let mut bad = vec![vec![], refusal, void, conflict, good[1..].to_vec(), good[..good.len() - 1].to_vec()];
    bad.push([&good[..], &[0]].concat());
    bad.extend([0u16, 1, 3, 4, 5, 0x0102].map(|kind| with(&good, KIND, &kind.to_le_bytes())));
    bad.extend([0u16, 2, 4, 8, 9, 259].map(|n| with(&good, COUNT, &n.to_le_bytes())));
    bad.extend([0u32, 203, 205, 208].map(|length| with(&good, LENGTH, &length.to_le_bytes())));
    bad.extend([0, 1, 2].map(|i| with(&good, HEAD + ENTRY * i + CHOSEN, &2u32.to_le_bytes())));
    bad.extend([answer(7, &[]), answer(7, &[V1; 9])]);
    for answer in bad {
        assert_eq!(outcome(&Call { answer: answer.clone(), ..taken() }), Err(1), "{answer:02x?}");
    }
}

#[test]
fn job_0_is_taken() {
    let answer = with(&taken().answer, JOB, &[0; 4]);
    assert_eq!(outcome(&Call { answer, ..taken() }), Ok(right().len()));
}

#[test]
fn b5_not_eight_texts() {
    let texts: Vec<&[u8]> = TEXTS.split_inclusive(|&b| b == b'\n').collect();
    let all = TEXTS.to_vec();
    let mut bad = vec![vec![], vec![b'\n'; 8], texts[..7].concat(), [&all[..], b"NINTH\n"].concat()];
    bad.extend([all[..all.len() - 1].to_vec(), [&all[..], b"\n"].concat(), [b"\n", &all[..]].concat()]);
    bad.extend([
        [&all[..], b"x"].concat(),
        [&all[..], b"\0"].concat(),
        String::from("\u{FEFF}").into_bytes(),
    ]);
    bad.push(String::from_utf8_lossy(TEXTS).replace('\n', "\r\n").into_bytes());
    for texts in bad {
        assert_eq!(outcome(&Call { texts: texts.clone(), ..taken() }), Err(5), "{texts:02x?}");
    }
}

#[test]
fn b5_in_each_text() {
    let wrong =
        [&b""[..], &[b'a'; 61], b" a", b"a ", b" ", b"a\x1Fb", b"a\x7Fb", b"a\x80b", b"a\nb", b"a\r", b"\t"];
    for i in 0..8 {
        for text in wrong {
            let mut texts = [&b"a"[..]; 8];
            texts[i] = text;
            let texts = texts.map(|text| [text, b"\n"].concat()).concat();
            assert_eq!(outcome(&Call { texts, ..taken() }), Err(5), "{i} {text:02x?}");
        }
    }
}

#[test]
fn every_legal_text_is_written_as_it_is() {
    for text in [&b"="[..], b"~", b"X = 1.000000000", b"a  b", &[b'!'; 59], &[b'~'; 60]] {
        let texts = [text, b"\n"].concat().repeat(8);
        let (size, out) = written(&taken().answer, 2, R1, &texts, 1000);
        let lines = lines::<15>(&out[..size.unwrap()]).unwrap();
        assert!(lines[1..9].iter().all(|line| line.ends_with(&[b" = ", text].concat())));
    }
}

#[test]
fn b6_for_all_but_the_entries() {
    let entry = |entry: u64| outcome(&Call { entry, room: 1000, ..taken() });
    assert!((1..=N).all(|number| entry(number).is_ok()));
    let beside =
        [0, N + 1, 8, 9, 255, 257, 1 << 16 | 1, 1 << 32, 1 << 32 | 1, 1 << 63, u64::MAX - 1, u64::MAX];
    assert!(beside.into_iter().all(|number| entry(number) == Err(6)));
}

#[test]
fn the_entry_s_own_v1_is_written() {
    let v1 = [1.0, 2.0, 3.0].map(|x| [x, x + 0.25, x + 0.5]);
    for (i, v1) in v1.iter().enumerate() {
        let (size, out) =
            written(&answer(7, &[[1.0; 3], [2.0; 3], [3.0; 3]]), i as u64 + 1, *v1, TEXTS, 1000);
        let numbers = super::super::read(&out[..size.unwrap()]).unwrap();
        assert_eq!(numbers.map(|n| n.whole), [i as u64 + 1; 6]);
        assert_eq!(numbers.map(|n| n.billionths / 250_000_000), [0, 1, 2, 0, 0, 0]);
    }
}

#[test]
fn b7_for_each_of_the_six_numbers() {
    for bad in [f64::NAN, -f64::NAN, f64::INFINITY, f64::NEG_INFINITY, 1e7, -1e7, f64::MAX] {
        for i in 0..3 {
            let (mut r1, mut v1) = (R1, V1);
            (r1[i], v1[i]) = (bad, bad);
            assert_eq!(outcome(&Call { r1, ..taken() }), Err(7));
            assert_eq!(outcome(&Call { answer: answer(7, &[V1, v1]), ..taken() }), Err(7));
            assert!(outcome(&Call { answer: answer(7, &[v1, V1, v1]), ..taken() }).is_ok(), "other entries");
        }
    }
}

#[test]
fn b8_exactly_below_the_message_s_size() {
    let size = right().len();
    for room in 0..size + 100 {
        let expected = if room < size { Err(8) } else { Ok(size) };
        assert_eq!(outcome(&Call { room, ..taken() }), expected, "{room}");
    }
}
