use super::*;

/// An answer with one entry: k = 5, 20 halvings, the upper end, velocities 1 to 6.
fn answer() -> Vec<u8> {
    let mut bytes = vec![76, 0, 0, 0, 2, 0, 9, 0, 0, 0, 1, 0, 0, 0, 1, 0];
    bytes.extend(5i64.to_le_bytes());
    bytes.extend([20, 0, 0, 0, 1, 0, 0, 0]);
    (1..=6).for_each(|v| bytes.extend(f64::from(v).to_le_bytes()));
    bytes
}

fn first(bytes: &[u8]) -> Result<Option<Record>, Fault> {
    Records::new(bytes).next().expect("bytes can be read")
}

#[test]
fn an_answer_is_read() {
    let Ok(Some(Record { job: 9, revision: 1, outcome: Outcome::Answered(entries) })) = first(&answer())
    else {
        panic!("not read");
    };
    assert_eq!((entries[0].width(), entries[0].chosen()), (1, 6));
    assert_eq!((entries[0].v1, entries[0].v2), ([1.0, 2.0, 3.0], [4.0, 5.0, 6.0]));
}

#[test]
fn each_fault_has_its_place() {
    for (at, value, offset, words) in [
        (0, 75, 0, "length is 75, but n = 1 has the length 76"),
        (4, 1, 4, "kind is 1, not 2 or 3"),
        (4, 3, 0, "length is 76, but refusal 1 has the length 12"),
        (14, 0, 14, "n is 0, not 1 to 8"),
        (14, 9, 14, "n is 9, not 1 to 8"),
        (23, 0x40, 16, "entry 1: lower end k = 4611686018427387909 is outside the stations"),
        (24, 21, 24, "entry 1: halvings are 21, above 20"),
        (28, 2, 28, "entry 1: chosen end is 2, not 0 or 1"),
    ] {
        let mut bytes = answer();
        bytes[at] = value;
        assert_eq!(first(&bytes), Err(Fault { offset, number: 1, words: words.into() }));
    }
}

#[test]
fn a_velocity_is_finite() {
    let mut bytes = answer();
    bytes[40..48].copy_from_slice(&f64::NAN.to_le_bytes());
    let words = "entry 1: a velocity component is NaN".into();
    assert_eq!(first(&bytes), Err(Fault { offset: 40, number: 1, words }));
}

/// A refusal with this length, this number and these bytes after its head.
fn refusal(length: u8, number: u8, after: &[u8]) -> Vec<u8> {
    [&[length, 0, 0, 0, 3, 0, 7, 0, 0, 0, 2, 0, 0, 0, number, 0], after].concat()
}

#[test]
fn a_refusal_has_a_number_of_the_table() {
    for (length, number) in [(12, 0), (12, 15), (18, 0), (18, 15), (18, 255)] {
        let words = format!("number is {number}, not 1 to 14");
        let found = first(&refusal(length, number, &[0; 6]));
        assert_eq!(found, Err(Fault { offset: 14, number: 1, words }));
    }
}

#[test]
fn refusal_12_has_a_void_station() {
    for j in [i32::MIN, -4096, -4095, -1, 0, 16_384, 16_385, i32::MAX] {
        for reason in [0, 1, 4, 5, u16::MAX] {
            let bytes = refusal(18, 12, &[&j.to_le_bytes()[..], &reason.to_le_bytes()].concat());
            let outcome = Outcome::Refused(Refusal::incomplete(j, reason));
            assert_eq!(first(&bytes), Ok(Some(Record { job: 7, revision: 2, outcome })));
        }
    }
}

/// Length 18 goes with number 12 and with nothing else.
#[test]
fn no_other_refusal_has_a_void_station() {
    for number in (1..=14).filter(|number| *number != 12) {
        let outcome = Outcome::Refused(Refusal::plain(number.into()));
        let plain = refusal(12, number, &[]);
        assert_eq!(first(&plain), Ok(Some(Record { job: 7, revision: 2, outcome })));
        let words = format!("length is 18, but refusal {number} has the length 12");
        assert_eq!(first(&refusal(18, number, &[0; 6])), Err(Fault { offset: 0, number: 1, words }));
    }
    for length in [0, 6, 12, 17, 19, 76] {
        let words = format!("length is {length}, but refusal 12 has the length 18");
        assert_eq!(first(&refusal(length, 12, &[0; 64])), Err(Fault { offset: 0, number: 1, words }));
    }
    let words = "cut short: 21 of 22 bytes".into();
    assert_eq!(first(&refusal(18, 12, &[0; 5])), Err(Fault { offset: 21, number: 1, words }));
}

/// A record that was split off by its length is read or has a fault, whatever its bytes are.
#[test]
fn every_framed_record_is_judged() {
    for (bytes, fault) in [
        (refusal(12, 12, &[]), Some("length is 12, but refusal 12 has the length 18")),
        (refusal(18, 11, &[0; 6]), Some("length is 18, but refusal 11 has the length 12")),
        (refusal(18, 12, &[255; 6]), None),
        (refusal(12, 11, &[]), None),
    ] {
        assert_eq!(Record::read(&bytes).err().map(|(_, words)| words).as_deref(), fault);
    }
}

#[test]
fn a_cut_record_is_a_fault() {
    let bytes = [answer(), answer()].concat();
    let mut records = Records::new(&bytes[..90]);
    assert!(matches!(records.next(), Ok(Ok(Some(_)))));
    let words = "cut short: 10 of the 16 bytes of a head".into();
    assert_eq!(records.next().unwrap(), Err(Fault { offset: 90, number: 2, words }));
    let words = "cut short: 79 of 80 bytes".into();
    assert_eq!(first(&bytes[..79]), Err(Fault { offset: 79, number: 1, words }));
}
