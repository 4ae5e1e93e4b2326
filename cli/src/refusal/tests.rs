use super::*;

/// The rows of the table in docs/FORMAT.md, from its heading to the next empty line.
fn table() -> Vec<&'static str> {
    let format = include_str!("../../../docs/FORMAT.md");
    let section = format.split("\n## Numbers of refusal\n").nth(1).expect("the section");
    let rows = section.lines().skip_while(|line| !line.starts_with("|---"));
    rows.skip(1).take_while(|line| line.starts_with('|')).collect()
}

#[test]
fn the_rows_are_those_of_the_format() {
    let expected: Vec<String> = (1..=14).map(|number| format!("| {number} | {} |", row(number))).collect();
    assert_eq!(table(), expected);
}

#[test]
fn every_number_says_what_it_does_not_say() {
    for refusal in (0..=20).map(Refusal::plain) {
        let number = refusal.number;
        assert!(short(refusal).ends_with(NOT_SAID), "{number}");
        assert!(words(refusal).to_lowercase().contains(NOT_SAID), "{number}");
        assert!(format!("refused {number}: {}", short(refusal)).len() <= 98, "{number}");
    }
}

#[test]
fn number_12_names_the_void_station_and_says_what_it_does_not_say() {
    let station = "the first void station is j = -4095, x = -0.999755859375, reason 3: a divisor is zero";
    let refusal = Refusal::incomplete(-4095, 3);
    let line = format!(
        "nothing was found in an incomplete search; {station}; later ones may be void too; {NOT_SAID}"
    );
    assert_eq!(short(refusal), line);
    assert_eq!(words(refusal), format!("{}. Here {station}", row(12)));
    assert!(
        row(12).ends_with("This does not say that no transfer exists, nor that later stations have times")
    );
}
