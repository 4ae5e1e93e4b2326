use super::{
    known, orbit_message, orbit_state, post, record_of, stations, time, time_or_reason, wanted,
    LONGEST_ORBIT_MESSAGE, TAKEN,
};
use crate::reason::Reason;
use crate::wire::slots::BOARD;
use crate::wire::SLOT;

const REFUSED_1: [u8; 16] = [12, 0, 0, 0, 3, 0, 0, 0, 0, 0, 0, 0, 0, 0, 1, 0];

#[test]
fn gives_the_worked_record() {
    let samples = include_bytes!("../../../samples/questions");
    let record = [12, 0, 0, 0, 3, 0, 7, 0, 0, 0, 2, 0, 0, 0, 11, 0];
    assert_eq!(record_of(&samples[..SLOT]), record);
}

#[test]
fn takes_any_length() {
    let samples = include_bytes!("../../../samples/questions");
    for length in [0, 1, 81, 83, 164, 492] {
        assert_eq!(record_of(&samples[..length]), REFUSED_1, "{length} bytes");
    }
}

#[test]
fn gives_the_grid_of_each_question() {
    let samples = include_bytes!("../../../samples/questions");
    for (slot, count, last) in [(0, 8_191, 4_095 << 20), (1, 20_480, 1 << 34), (3, 8_191, 4_095 << 20)] {
        let places = stations(&samples[slot * SLOT..][..SLOT]);
        assert_eq!((places.len(), places[0], places.last()), (count, -4_095 << 20, Some(&last)));
        assert!(places.windows(2).all(|pair| pair[1] - pair[0] == 1 << 20));
    }
    assert!(stations(&samples[5 * SLOT..]).is_empty() && stations(&samples[..81]).is_empty());
}

#[test]
fn gives_the_worked_times() {
    let worked = &include_bytes!("../../../samples/questions")[..SLOT];
    assert!((f64::from_bits(wanted(worked)) - 0.634).abs() < 1e-3);
    assert!(f64::from_bits(time(worked, 0)) > std::f64::consts::PI);
    for k in [i64::MIN, -1 << 32, 1 << 32, i64::MAX] {
        assert_eq!(known(time(worked, k)), None, "k = {k}");
    }
    assert_eq!((wanted(&worked[..81]), time(&[], 0)), (u64::MAX, u64::MAX));
    assert_eq!(time_or_reason(worked, 0).ok(), known(time(worked, 0)));
}

/// Every place beyond the ends of the question's grid is void, by the first reason.
#[test]
fn a_void_place_has_its_reason() {
    let samples = include_bytes!("../../../samples/questions");
    for (slot, last) in [(0, 4_095 << 20), (1, 1i64 << 34)] {
        let question = &samples[slot * SLOT..][..SLOT];
        for k in [i64::MIN, -1 << 32, (-4_095 << 20) - 1, last + 1, i64::MAX] {
            assert_eq!(time_or_reason(question, k), Err(Reason(1)), "k = {k}");
            assert_eq!(time(question, k), 0x7FF8_0000_0000_0001);
        }
        assert!(time_or_reason(question, -4_095 << 20).is_ok() && time_or_reason(question, last).is_ok());
    }
}

#[test]
fn no_nan_is_a_time() {
    for bits in [u64::MAX, 0x7FF8_0000_0000_0001, 0x7FF8_0000_0000_0000, 0xFFF0_0000_0000_0001] {
        assert_eq!(known(bits), None);
    }
    assert_eq!([0, 1.5f64.to_bits(), f64::MAX.to_bits()].map(known), [Some(0.0), Some(1.5), Some(f64::MAX)]);
}

#[test]
fn posts_to_boards_of_the_right_size_alone() {
    let record = record_of(&include_bytes!("../../../samples/questions")[..SLOT]);
    for size in [0, 1, BOARD - 1, BOARD + 1] {
        assert_eq!(post(&mut vec![0; size], &record), 0, "{size} bytes");
    }
    let mut board = vec![0; BOARD];
    let told = [&[][..], &REFUSED_1, &record].map(|bytes| post(&mut board, bytes));
    assert_eq!(told, [1, 2, TAKEN]);
    assert!(board[..16] == record && board[16..].iter().all(|byte| *byte == 0));
}

/// An answer with two entries. The velocities of the first are 0, and v1 of the second is given.
fn answer(v1: [f64; 3]) -> Vec<u8> {
    let mut bytes = vec![140, 0, 0, 0, 2, 0, 9, 0, 0, 0, 1, 0, 0, 0, 2, 0];
    bytes.extend([0; 64 + 16]);
    v1.iter().for_each(|component| bytes.extend(component.to_le_bytes()));
    bytes.extend([0; 24]);
    bytes
}

#[test]
fn writes_orbit_messages_and_reads_them_back() {
    let texts = "2026-11-17T16:00:00\nA\nB = b\nC\nD\nE\nF\nG\n";
    let r1 = [-7000.5, 0.25, -1e-10];
    let message = orbit_message(&answer([-1.5, 9_999_999.999_999_998, 3e-9]), 2, r1, texts.as_bytes());
    let text = String::from_utf8(message.clone().expect("an orbit message")).expect("text");
    let numbers: Vec<&str> = text.lines().skip(9).collect();
    assert!(text.starts_with("CCSDS_OPM_VERS = 2.0\nCREATION_DATE = 2026-11-17T16:00:00\nORIGINATOR = A\n"));
    assert_eq!(numbers[..3], ["X = -7000.500000000", "Y = 0.250000000", "Z = 0.000000000"]);
    assert_eq!(numbers[3..], ["X_DOT = -1.500000000", "Y_DOT = 9999999.999999998", "Z_DOT = 0.000000003"]);
    let state = [
        [1, 7000, 500_000_000],
        [0, 0, 250_000_000],
        [0; 3],
        [1, 1, 500_000_000],
        [0, 9_999_999, 999_999_998],
    ];
    assert_eq!(orbit_state(text.as_bytes()).expect("a state")[..5], state);
    assert_eq!(orbit_state(&text.as_bytes()[1..]), Err(10));
    assert_eq!(orbit_state(&[]), Err(10));
}

#[test]
fn the_shortest_and_the_longest_orbit_message_fit() {
    let size = |texts: &str, number: f64| {
        orbit_message(&answer([number; 3]), 2, [number; 3], texts.as_bytes()).map(|message| message.len())
    };
    assert_eq!(size(&"a\n".repeat(8), 0.0), Ok(248));
    assert_eq!(size(&format!("{}\n", "x".repeat(60)).repeat(8), -1_234_567.5), Ok(LONGEST_ORBIT_MESSAGE));
}

#[test]
fn refuses_in_the_order_of_the_numbers() {
    let (good, texts, r1) = (answer([0.0; 3]), "a\n".repeat(8), [0.0; 3]);
    let number =
        |bytes: &[u8], entry, r1, texts: &str| orbit_message(bytes, entry, r1, texts.as_bytes()).err();
    assert_eq!(number(&good[..143], 3, [f64::NAN; 3], ""), Some(1));
    assert_eq!(number(&REFUSED_1, 1, r1, &texts), Some(1));
    assert_eq!(number(&good, 3, [f64::NAN; 3], &texts[1..]), Some(5));
    assert_eq!([0, 3, u64::MAX].map(|entry| number(&good, entry, [f64::NAN; 3], &texts)), [Some(6); 3]);
    for bad in [f64::NAN, f64::INFINITY, 1e7, -1e7] {
        assert_eq!(number(&good, 1, [0.0, 0.0, bad], &texts), Some(7), "r1 {bad}");
        let fast = answer([0.0, bad, 0.0]);
        assert_eq!([1, 2].map(|entry| number(&fast, entry, r1, &texts)), [None, Some(7)], "v1 {bad}");
    }
}

/// `cli/test` runs this test with the names of a file of questions and of the file of records that `lambert` wrote for them.
#[test]
#[ignore = "needs LAMBERT_QUESTIONS and LAMBERT_RECORDS"]
fn gives_the_records_of_lambert() {
    let file = |name: &str| std::fs::read(std::env::var(name).expect(name)).expect(name);
    let questions = file("LAMBERT_QUESTIONS");
    let records: Vec<u8> = questions.chunks(SLOT).flat_map(record_of).collect();
    assert!(records == file("LAMBERT_RECORDS"), "the records differ");
}
