use super::*;
use crate::board::posting::tests::{answer, holding, incomplete, of_files, posted, refusal};
use crate::wire::Refusal;

const PLAIN: Look = Look { columns: None, colour: Colour(false), explain: false };

/// The number of every refusal without a void station.
fn numbers() -> impl Iterator<Item = u8> {
    (1..=14).filter(|number| *number != 12)
}

/// A board with an answer, every refusal but 12, a conflict and an input that was cut short.
fn board() -> Posting {
    let refusals: Vec<u8> = numbers().flat_map(|number| refusal(100 + number, number)).collect();
    let answers =
        [answer(1, &[1.0, 123456.0]), answer(2, &[1.0]), answer(2, &[1e-9]), refusal(0, 1)].concat();
    of_files(&[("refusals", refusals), ("answers", answers), ("cut", vec![1])])
}

#[test]
fn a_row_for_each_transfer_and_refusal() {
    let posting = board();
    let text = table(&posting, &PLAIN);
    let lines: Vec<&str> = text.lines().collect();
    assert_eq!(lines[0], "       job  revision  transfer  orbit      x of chosen end    v1 km/s    v2 km/s");
    assert_eq!(lines[1], "         1         1  1 of 2    ellipse     0.000000000000   1.000000   5.000000");
    assert_eq!(
        lines[2],
        "                      2 of 2    ellipse     0.000000000000  123456.000000   5.000000"
    );
    assert_eq!(lines[3], format!("         2         1  CONFLICT: {CONFLICT}"));
    assert!(
        lines[5].ends_with("answers, byte 224: 1 transfer: ellipse, v1 1.00000e-9 km/s, v2 5.000000 km/s")
    );
    assert_eq!(lines[6].trim(), "they differ first at byte 32 of the record, v1 x of transfer 1: 1 and 1e-9");
    for (number, line) in numbers().zip(&lines[7..]) {
        let words = format!("refused {number}: {}", refusal::short(Refusal::plain(number.into())));
        assert_eq!(*line, format!("{:>10}         1  {words}", 100 + number));
    }
    assert_eq!(lines[20], "15 of 64 slots filled: 1 answered, 13 refused, 1 in conflict");
    let missing = "INCOMPLETE: 1 of 17 records has job 0 (B2); cut could not be read to its end";
    assert_eq!(*lines.last().expect("a line"), missing);
}

#[test]
fn lines_fit_the_width() {
    let posting = board();
    for (columns, widest) in
        [(Some(80), 80), (Some(100), 100), (Some(50), 50), (Some(1), 22 + NARROW), (None, 143)]
    {
        for explain in [false, true] {
            let text = table(&posting, &Look { columns, explain, ..PLAIN });
            let wide: Vec<&str> = text.lines().filter(|line| line.len() > widest).collect();
            // A speed of 123456 km/s is too wide for its column.
            assert!(wide.iter().all(|line| line.contains("123456.000000")), "{wide:?}");
            let words: Vec<&str> = text.split_whitespace().collect();
            let words = words.join(" ");
            let short = refusal::short(Refusal::plain(13));
            assert!(words.contains(&short) && words.contains("(B2); cut could not be read"));
            assert!(words.contains("2 of 2 ellipse 0.000000000000 123456.000000 5.000000"), "{columns:?}");
            assert_eq!(words.contains(&refusal::words(Refusal::plain(11))), explain);
        }
    }
}

#[test]
fn a_refusal_12_names_its_void_station() {
    let stations = [(-4095, 1), (0, 2), (16_384, 3), (7, 4), (i32::MIN, 0), (i32::MAX, u16::MAX)];
    let records: Vec<Vec<u8>> =
        (1..).zip(stations).map(|(job, (j, reason))| incomplete(job, j, reason)).collect();
    let posting = posted(holding(&records), Vec::new());
    for explain in [false, true] {
        for columns in [None, Some(80)] {
            let text = table(&posting, &Look { columns, explain, ..PLAIN });
            assert!(columns.is_none_or(|most| text.lines().all(|line| line.len() <= most)), "{text}");
            let words = text.split_whitespace().collect::<Vec<_>>().join(" ");
            for (job, (j, reason)) in (1..).zip(stations) {
                let of = Refusal::incomplete(j, reason);
                assert!(words.contains(&format!("{job} 1 refused 12: {}", refusal::short(of))), "{words}");
                assert_eq!(words.contains(&refusal::words(of)), explain);
            }
        }
    }
}

/// Each line of a transfer begins where its first line does.
#[test]
fn a_narrow_row_has_more_lines() {
    let text = table(&of_files(&[("a", answer(1, &[1.0]))]), &Look { columns: Some(50), ..PLAIN });
    let expected = [
        "       job  revision  transfer  orbit",
        "                      x of chosen end    v1 km/s",
        "                        v2 km/s",
        "         1         1  1 of 1    ellipse",
        "                       0.000000000000   1.000000",
        "                       5.000000",
    ];
    assert_eq!(text.lines().take(6).collect::<Vec<_>>(), expected);
}

#[test]
fn the_largest_numbers_keep_apart() {
    let mut largest = refusal(1, 11);
    largest[6..14].fill(255);
    let text = table(&of_files(&[("a", largest)]), &PLAIN);
    assert!(text.contains("\n4294967295  4294967295  refused 11: "), "{text}");
}

#[test]
fn what_matters_is_coloured() {
    let text = table(&board(), &Look { colour: Colour(true), ..PLAIN });
    let coloured = |code: &str| text.lines().filter(|line| line.starts_with(code)).count();
    assert_eq!((coloured("\x1b[33m"), coloured("\x1b[1;31m")), (13, 2));
    assert!(text.ends_with("cut could not be read to its end\x1b[0m\n"));
}
