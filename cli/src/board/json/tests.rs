use super::*;
use crate::board::posting::tests::{answer, holding, incomplete, of_files, posted, refusal};
use crate::wire::Refusal;

#[test]
fn each_slot_is_a_line() {
    let first = [refusal(1, 9), answer(2, &[1.5]), refusal(3, 11)].concat();
    let second = [refusal(3, 13), refusal(3, 8)].concat();
    let text = lines(&of_files(&[("a \"b\"\n\u{7f}", first), ("c\\d", second)]));
    let of = |number| string(&refusal::words(Refusal::plain(number)));
    let transfer = r#"{"orbit":"ellipse","x":0.0,"k":0,"v1_km_s":[1.5,0.0,0.0],"v1_size_km_s":1.5,"v2_km_s":[0.0,3.0,4.0],"v2_size_km_s":5.0}"#;
    let expected = [
        format!(r#"{{"job":1,"revision":1,"state":"refused","number":9,"meaning":{}}}"#, of(9)),
        format!(r#"{{"job":2,"revision":1,"state":"answered","transfers":[{transfer}]}}"#),
        [
            r#"{"job":3,"revision":1,"state":"conflict","records":["#,
            r#"{"file":"a \"b\"\u000a\u007f","byte":96,"state":"refused","number":11,"meaning":"#,
            &of(11),
            r#"},{"file":"c\\d","byte":0,"state":"refused","number":13,"meaning":"#,
            &of(13),
            r#"}],"first_difference":{"byte":14,"field":"number","values":[11,13]},"more_records":1}"#,
        ]
        .concat(),
    ];
    assert_eq!(text, expected.join("\n") + "\n");
}

#[test]
fn a_refusal_12_has_its_void_station() {
    let records = [incomplete(1, -4095, 1), incomplete(2, i32::MIN, 0)];
    let text = lines(&posted(holding(&records), Vec::new()));
    let line = |job: u8, j: i32, reason: u16, void: &str| {
        let meaning = string(&refusal::words(Refusal::incomplete(j, reason)));
        format!(
            r#"{{"job":{job},"revision":1,"state":"refused","number":12,"meaning":{meaning},"void_station":{void}}}"#
        )
    };
    let [first, odd] = [
        r#"{"j":-4095,"x":-0.999755859375,"reason":1,"why":"lambda, the revolutions or x is out of range"}"#,
        r#"{"j":-2147483648,"x":-524288.0,"reason":0,"why":"not a reason of the rules, which have 1 to 4"}"#,
    ];
    assert_eq!(text, [line(1, -4095, 1, first), line(2, i32::MIN, 0, odd)].join("\n") + "\n");
}

#[test]
fn values_that_json_lacks_are_strings() {
    let posting = of_files(&[("a", [answer(1, &[f64::INFINITY]), answer(1, &[1e300])].concat())]);
    let text = lines(&posting);
    assert!(text.contains(r#""field":"v1 x of transfer 1","values":["inf",1e300]"#), "{text}");
    assert!(
        text.contains(
            r#""transfers":null,"fault":"1 transfer that the solver cannot have written: entry 1: "#
        ),
        "{text}"
    );
}

#[test]
fn what_is_missing_is_the_last_object() {
    let text = lines(&of_files(&[("a", [refusal(0, 9), refusal(1, 9)].concat()), ("\"b\"", vec![1])]));
    let found: Vec<&str> = text.lines().collect();
    assert!(found[0].starts_with(r#"{"job":1,"revision":1,"#));
    let words = r#"1 of 2 records has job 0 (B2); \"b\" could not be read to its end"#;
    assert_eq!(found[1..], [format!(r#"{{"state":"incomplete","meaning":"{words}"}}"#)]);
}
