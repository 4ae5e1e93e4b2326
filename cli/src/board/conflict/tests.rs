use super::*;
use crate::board::origins::{Kept, Place};
use crate::board::posting::tests::{answer, incomplete, of_files, posted, refusal};
use crate::board::posting::Posting;
use crate::streams::Input;

fn said(posting: &Posting, job: u32) -> Vec<String> {
    sentences(posting.origins.of(job).expect("the job"), &posting.names)
}

#[test]
fn both_records_and_their_difference_are_named() {
    let first = [refusal(1, 11), answer(2, &[6.752089, 7.0])].concat();
    let second = answer(2, &[6.752090000001, 7.0]);
    let posting = of_files(&[("a", first), ("b", second), ("c", [refusal(2, 9), refusal(2, 9)].concat())]);
    let expected = [
        "a, byte 16: 2 transfers: ellipse, v1 6.752089 km/s, v2 5.000000 km/s; ellipse, v1 7.000000 km/s, \
         v2 5.000000 km/s",
        "b, byte 0: 2 transfers: ellipse, v1 6.752090 km/s, v2 5.000000 km/s; ellipse, v1 7.000000 km/s, \
         v2 5.000000 km/s",
        "they differ first at byte 32 of the record, v1 x of transfer 1: 6.752089 and 6.752090000001",
        "2 more records for this revision differ from both",
    ];
    assert_eq!(said(&posting, 2), expected);
}

#[test]
fn a_stored_board_is_named() {
    let input = |name: &str, bytes: Vec<u8>| {
        Ok(Input { name: name.into(), bytes: Box::new(std::io::Cursor::new(bytes)), file: None })
    };
    let old = of_files(&[("x", [refusal(1, 11), refusal(2, 11), refusal(2, 13)].concat())]).board;
    let new = [refusal(1, 9), refusal(2, 8)].concat();
    let posting = posted(old, vec![("new", input("new", new))]);
    let not_said = "this does not say that no transfer exists";
    let of_one = [
        format!("old.board, slot 1: refused 11: nothing was found among the shapes searched; {not_said}"),
        format!("new, byte 0: refused 9: the positions are too close together; {not_said}"),
        "they differ first at byte 14 of the record, number: 11 and 9".into(),
    ];
    assert_eq!(said(&posting, 1), of_one);
    let of_two = said(&posting, 2);
    assert!(
        of_two[0].starts_with("old.board, slot 2: in conflict already; which records caused it is not known")
    );
    assert!(of_two.len() == 2 && of_two[1].starts_with("new, byte 16: refused 8: "));
}

/// Returns the sentences about a conflict of two records, of the files a and b.
fn between(one: Vec<u8>, other: Vec<u8>) -> Vec<String> {
    let kept = |(number, bytes)| Kept { place: Place::Input { number, byte: 0 }, bytes };
    let records = [one, other].into_iter().enumerate().map(kept).collect();
    let names = Names { stored: String::new(), inputs: vec!["a".into(), "b".into()] };
    sentences(&Origin { revision: 1, conflict_in: None, records, more: 0 }, &names)
}

#[test]
fn two_void_stations_are_named() {
    let start = "refused 12: nothing was found in an incomplete search; the first void station is";
    let end = "later ones may be void too; this does not say that no transfer exists";
    let expected = [
        format!("a, byte 0: {start} j = -1024, x = -0.25, reason 3: a divisor is zero; {end}"),
        format!("b, byte 0: {start} j = -1024, x = -0.25, reason 4: the result is not finite; {end}"),
        "they differ first at byte 20 of the record, reason of the first void station: 3 and 4".into(),
    ];
    assert_eq!(between(incomplete(1, -1024, 3), incomplete(1, -1024, 4)), expected);
    let found = between(incomplete(1, -1024, 3), incomplete(1, 16_384, 3));
    assert_eq!(
        found[2],
        "they differ first at byte 16 of the record, j of the first void station: -1024 and 16384"
    );
    let found = between(incomplete(1, -1024, 3), refusal(1, 11));
    assert_eq!(found[2], "they differ first at byte 0 of the record, length: 18 and 12");
}

#[test]
fn a_strange_answer_is_not_shown_as_transfers() {
    let mut strange = answer(2, &[f64::NAN]);
    assert_eq!(
        phrase(&held(&strange)),
        "1 transfer that the solver cannot have written: entry 1: a velocity component is NaN"
    );
    strange[24] = 21;
    assert_eq!(
        phrase(&held(&strange)),
        "1 transfer that the solver cannot have written: entry 1: halvings are 21, above 20"
    );
}
