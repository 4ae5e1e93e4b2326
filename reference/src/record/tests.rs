use super::*;
use crate::questions::document;
use crate::wire::with;

/// 01's worked question and its whole output.
#[test]
fn the_document_s_bytes() {
    let expected = [0x0C, 0, 0, 0, 3, 0, 7, 0, 0, 0, 2, 0, 0, 0, 0x0B, 0];
    let all: Vec<u8> = replies(&document().write()).flatten().collect();
    assert_eq!(all, expected);
}

/// Whatever its cause, number 1 is written with job 0 and revision 0. Other refusals keep both.
#[test]
fn whose_refusal_it_is() {
    let d = document();
    let record = |q: Question| Record::reply(&q.write());
    let ones = [
        Question { length: 79, ..d },
        Question { kind: 2, ..d },
        Question { way: 2, ..d },
        Question { spare: 1, ..d },
    ];
    for one in ones.into_iter().chain([Question { job: 0, ..d }]) {
        assert_eq!(record(one), Record { job: 0, revision: 0, outcome: Err(Refusal::Number(1)) });
    }
    assert_eq!(
        record(Question { mu: 0.5, ..d }),
        Record { job: 7, revision: 2, outcome: Err(Refusal::Number(4)) }
    );
}

#[test]
fn slots() {
    assert_eq!(replies(&[]).count(), 0);
    let mut input = document().write().to_vec();
    input.extend(&document().write()[..81]);
    let all: Vec<Record> = replies(&input).map(|b| Record::read(&b).unwrap()).collect();
    assert_eq!(all[0], Record { job: 7, revision: 2, outcome: Err(Refusal::Number(11)) });
    assert_eq!(all[1], Record { job: 0, revision: 0, outcome: Err(Refusal::Number(1)) });
    assert_eq!(all.len(), 2);
}

fn answer() -> Record {
    let velocities = [[1.0, 2.0, 3.0], [-4.0, 5.0, -0.0]];
    let first = Entry { lower: -2, halvings: 20, upper_chosen: false, velocities };
    let second = Entry { lower: 0x0102_0304_0506_0708, halvings: 0x0910, upper_chosen: true, velocities };
    Record { job: 0x0A0B_0C0D, revision: 0x1A1B_1C1D, outcome: Ok(vec![first, second]) }
}

#[test]
fn an_answer_s_bytes() {
    let bytes = answer().write();
    assert_eq!(bytes.len(), 16 + 2 * 64);
    assert_eq!(bytes[..16], [140, 0, 0, 0, 2, 0, 0x0D, 0x0C, 0x0B, 0x0A, 0x1D, 0x1C, 0x1B, 0x1A, 2, 0]);
    assert_eq!(bytes[16..32], [0xFE, 255, 255, 255, 255, 255, 255, 255, 20, 0, 0, 0, 0, 0, 0, 0]);
    assert_eq!(bytes[32..40], 1f64.to_le_bytes());
    assert_eq!(bytes[72..80], (-0.0f64).to_le_bytes());
    assert_eq!(bytes[80..96], [8, 7, 6, 5, 4, 3, 2, 1, 0x10, 9, 0, 0, 1, 0, 0, 0]);
}

fn void(j: i32, reason: u16) -> Record {
    Record { job: 7, revision: 2, outcome: Err(Refusal::Void { j, reason }) }
}

#[test]
fn the_bytes_of_number_12() {
    let bytes = [0x12, 0, 0, 0, 3, 0, 7, 0, 0, 0, 2, 0, 0, 0, 0x0C, 0, 0x01, 0xF0, 0xFF, 0xFF, 1, 0];
    assert_eq!(void(-4_095, 1).write(), bytes);
    assert_eq!(void(0x0102_0304, 0x0506).write()[16..], [4, 3, 2, 1, 6, 5]);
    for (j, reason) in [(0, 0), (i32::MIN, 5), (i32::MAX, u16::MAX), (-1, 2)] {
        assert_eq!(Record::read(&void(j, reason).write()), Some(void(j, reason)));
    }
}

/// The six bytes at the end belong to number 12 and to no other number.
#[test]
fn a_station_goes_with_number_12_alone() {
    let long = void(-1, 2).write();
    let short = Record { job: 7, revision: 2, outcome: Err(Refusal::Number(11)) }.write();
    assert_eq!((long.len(), short.len()), (22, 16));
    for number in 0..=u16::MAX {
        let read = |bytes: &[u8]| Record::read(&with(bytes, 14, &number.to_le_bytes())).is_some();
        assert_eq!([read(&long), read(&short)], [number == 12, number != 12], "{number}");
    }
}

#[test]
fn what_is_written_is_split_and_read() {
    let refused = Record { job: 1, revision: 2, outcome: Err(Refusal::Number(9)) };
    let bytes = [refused.write(), void(-9, 3).write(), answer().write(), vec![7, 7, 7]].concat();
    let parts = split(&bytes);
    assert_eq!(parts.iter().map(|p| p.len()).collect::<Vec<_>>(), [16, 22, 144, 3]);
    let read: Vec<Option<Record>> = parts.iter().map(|part| Record::read(part)).collect();
    assert_eq!(read, [Some(refused), Some(void(-9, 3)), Some(answer()), None]);
    assert_eq!(Record::read(&parts[2][..143]), None);
}
