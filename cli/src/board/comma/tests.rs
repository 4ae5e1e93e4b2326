use super::*;
use crate::board::posting::tests::{answer, holding, incomplete, of_files, posted, refusal};
use crate::csv::Rows;
use crate::wire::Refusal;

#[test]
fn each_transfer_refusal_and_conflict_is_a_line() {
    let first = [refusal(1, 9), answer(2, &[1.5, 2.5]), refusal(3, 11), answer(4, &[f64::NAN])].concat();
    let text = lines(&of_files(&[("a,\"b\"", first), ("c", refusal(3, 13))]));
    let conflict = format!("{CONFLICT}; they differ first at byte 14 of the record, number: 11 and 13");
    let expected = [
        format!("{HEAD}{}", void_station::COLUMNS).replace(',', "|"),
        format!("1|1|refused|9|{}|||||||||||||", refusal::words(Refusal::plain(9))),
        "2|1|answered|||1|2|ellipse|0.0|1.5|5.0|||||||".into(),
        "2|1|answered|||2|2|ellipse|0.0|2.5|5.0|||||||".into(),
        format!("3|1|conflict||{conflict}|||||||a,\"b\"|160|c|0|||"),
        "4|1|answered||1 transfer that the solver cannot have written: entry 1: a velocity component is NaN||1|||||||||||".into(),
    ];
    assert_eq!(rows_of(&text), expected);
    assert!(!text.contains('\r'));
}

/// Returns the rows of a text, each with its fields joined.
fn rows_of(text: &str) -> Vec<String> {
    let mut rows = Rows::new(text.as_bytes());
    let next = || {
        let row = rows.next().expect("good rows")?;
        assert_eq!(row.fields.len(), COLUMNS);
        Some(row.fields.join("|"))
    };
    std::iter::from_fn(next).collect()
}

#[test]
fn a_refusal_12_has_its_void_station() {
    let records = [incomplete(1, -4095, 1), refusal(2, 11), incomplete(3, i32::MAX, u16::MAX)];
    let text = lines(&posted(holding(&records), Vec::new()));
    let row = |job: u8, of: Refusal, void: &str| {
        format!("{job}|1|refused|{}|{}||||||||||{void}", of.number, refusal::words(of))
    };
    let expected = [
        row(1, Refusal::incomplete(-4095, 1), "|-4095|-0.999755859375|1"),
        row(2, Refusal::plain(11), "|||"),
        row(3, Refusal::incomplete(i32::MAX, u16::MAX), "|2147483647|524287.9997558594|65535"),
    ];
    assert_eq!(rows_of(&text)[1..], expected);
}

#[test]
fn what_is_missing_is_the_last_row() {
    let text = lines(&of_files(&[("a", [refusal(0, 9), refusal(1, 9)].concat()), ("b,c", vec![1])]));
    let found: Vec<&str> = text.lines().collect();
    assert!(found[1].starts_with("1,1,refused,9,"));
    let words = "1 of 2 records has job 0 (B2); b,c could not be read to its end";
    assert_eq!(found[2..], [format!(",,incomplete,,\"{words}\",,,,,,,,,,,,,")]);
}
