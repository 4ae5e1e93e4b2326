use super::*;

#[test]
fn numbers_are_read_to_the_last_bit() {
    for (text, value) in [("7000", 7000.0), (" -0.1 ", -0.1), ("+1e3", 1000.0), (".5", 0.5), ("0e9", 0.0)] {
        assert_eq!(real(text), Ok(value), "{text}");
    }
    assert_eq!(real("-0").map(f64::to_bits), Ok((-0.0f64).to_bits()));
    assert_eq!(real("5e-324").map(f64::to_bits), Ok(1));
}

#[test]
fn what_is_no_number_is_refused() {
    for text in ["abc", "1,5", "nan", "inf", "-inf", "infinity", "0x10", "1 2", "--1", "1e", "e5", "٣"] {
        assert_eq!(real(text), Err(format!("{text:?} is not a number")));
    }
    assert_eq!(real(" "), Err("is empty".into()));
    assert_eq!(real("1e999"), Err("\"1e999\" is too large for an f64".into()));
    assert_eq!(real("1e-999"), Err("\"1e-999\" is too small for an f64".into()));
}

#[test]
fn whole_numbers_keep_to_their_width() {
    assert_eq!((job("1"), job("4294967295")), (Ok(1), Ok(u32::MAX)));
    assert_eq!(job("0"), Err("is 0, but job numbers start at 1".into()));
    assert_eq!(job("4294967296"), Err("4294967296 is above 4294967295".into()));
    assert_eq!((revolutions("65535"), revolutions("17")), (Ok(65535), Ok(17)));
    assert_eq!(revolutions("65536"), Err("65536 is above 65535".into()));
    assert_eq!(revolutions("-1"), Err("-1 is negative".into()));
    assert_eq!(revolutions("1.5"), Err("\"1.5\" is not a whole number".into()));
    assert_eq!(revision("-"), Err("\"-\" is not a whole number".into()));
    assert_eq!(revision("+1"), Err("\"+1\" is not a whole number".into()));
    assert_eq!(revision("99999999999999999999"), Err("99999999999999999999 is above 4294967295".into()));
}

#[test]
fn times_have_units() {
    for (text, seconds) in [
        ("90", 90.0),
        ("90s", 90.0),
        ("1.5min", 90.0),
        ("6 h", 21_600.0),
        ("3.5d", 302_400.0),
        ("1e2h", 360_000.0),
    ] {
        assert_eq!(time(text), Ok(seconds), "{text}");
    }
    assert_eq!(time("5m"), Err("\"m\" is not a unit of time: s, min, h or d".into()));
    assert_eq!(time("5 H"), Err("\"H\" is not a unit of time: s, min, h or d".into()));
    assert_eq!(time("h"), Err("\"h\" is not a number".into()));
    assert_eq!(time("1e308d"), Err("\"1e308d\" is too large for an f64".into()));
    assert_eq!(time(""), Err("is empty".into()));
}

#[test]
fn names_are_exact() {
    assert_eq!((mu("earth"), mu("398600.4418")), (Ok(398_600.441_8), Ok(398_600.441_8)));
    assert_eq!(mu("Earth"), Err("\"Earth\" is not a number and not one of earth, moon, mars, sun".into()));
    assert_eq!((way("short"), way("long")), (Ok(false), Ok(true)));
    assert_eq!(way("Short"), Err("\"Short\" is neither short nor long".into()));
    assert_eq!(vector("1, 2,3"), Ok([1.0, 2.0, 3.0]));
    assert_eq!(vector("1,2"), Err("has 2 components, not 3: write x,y,z with commas and no blanks".into()));
    assert_eq!(
        vector("1,2,3,4"),
        Err("has 4 components, not 3: write x,y,z with commas and no blanks".into())
    );
    assert_eq!(vector("1,,3"), Err("is empty".into()));
}

#[test]
fn a_body_is_found_by_its_mu() {
    for (name, radius) in [("earth", 6_378.137), ("moon", 1_737.4), ("mars", 3_396.19), ("sun", 695_700.0)] {
        let value = mu(name).expect("a body");
        let body = body_of(value).expect("a body");
        assert_eq!((body.name, body.radius), (name, radius));
        assert!(!body.source.is_empty() && !body.radius_source.is_empty());
        assert!(body_of(value.next_up()).is_none() && body_of(-value).is_none());
    }
    assert!(body_of(f64::NAN).is_none());
}
