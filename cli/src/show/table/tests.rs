use super::super::notes::notes;
use super::super::view::Form;
use super::*;
use crate::proved::record_of;
use crate::refusal;
use crate::terminal::Colour;
use crate::wire::{Question, Record, Records, Refusal, SLOT};

fn view(columns: Option<usize>) -> View {
    View { form: Form::Table, detail: false, explain: false, colour: Colour(false), columns, radius: None }
}

/// The samples with their records.
fn samples() -> Vec<(Record, Asked)> {
    let slots = include_bytes!("../../../../samples/questions").chunks(SLOT);
    let pair = |slot: &[u8]| {
        let record = Records::new(&record_of(slot)[..]).next().expect("bytes").expect("a record");
        (record.expect("a record"), Asked::Known(Question::read(slot).expect("a question")))
    };
    slots.map(pair).collect()
}

#[test]
fn every_refusal_is_one_line_and_explained_if_asked() {
    for number in (1..=14).filter(|number| *number != 12) {
        let refused = Refusal::plain(number);
        let record = Record { job: 5, revision: 1, outcome: Outcome::Refused(refused) };
        let item = Item::new(&record, &Asked::Unknown, None);
        let text = |view: &View| Table::new(Names::JobAndRevision, false, view).item(&item, view);
        let short = format!("     5         1  refused {number}: {}\n", refusal::short(refused));
        assert_eq!(text(&view(Some(200))), short);
        let explained = text(&View { explain: true, ..view(None) });
        let words: Vec<&str> = explained.split_whitespace().skip(2).collect();
        let all = format!("refused {number}: {} {}", refusal::short(refused), refusal::words(refused));
        assert_eq!(words.join(" "), format!("{all} What to do: {}.", refusal::advice(number)));
    }
}

#[test]
fn a_void_station_is_named_without_being_asked_for() {
    for (j, reason) in [(-4095, 1), (0, 2), (16_384, 3), (7, 4), (i32::MIN, 0), (i32::MAX, u16::MAX)] {
        let refused = Refusal::incomplete(j, reason);
        let record = Record { job: 5, revision: 1, outcome: Outcome::Refused(refused) };
        let item = Item::new(&record, &Asked::Unknown, None);
        for explain in [false, true] {
            let view = View { explain, ..view(Some(80)) };
            let text = Table::new(Names::JobAndRevision, false, &view).item(&item, &view);
            assert!(text.lines().all(|line| line.len() <= 80), "{text}");
            let words: Vec<&str> = text.split_whitespace().collect();
            let words = words.join(" ");
            assert!(words.starts_with(&format!("5 1 refused 12: {}", refusal::short(refused))), "{words}");
            assert_eq!(words.contains(&refusal::words(refused)), explain);
        }
    }
}

#[test]
fn a_long_job_does_not_touch_its_refusal() {
    let record = Record { job: u32::MAX, revision: u32::MAX, outcome: Outcome::Refused(Refusal::plain(8)) };
    let item = Item::new(&record, &Asked::Unknown, None);
    let text = Table::new(Names::JobAndRevision, false, &view(None)).item(&item, &view(None));
    assert!(text.starts_with("4294967295  4294967295  refused 8: "), "{text}");
}

#[test]
fn lines_fit_the_columns() {
    for columns in [40, 60, 80, 100, 132] {
        for (detail, known) in [(false, true), (true, true), (false, false), (true, false)] {
            let view = View { detail, explain: detail, ..view(Some(columns)) };
            let table = Table::new(Names::JobAndRevision, known, &view);
            let item = |(record, asked): &(Record, Asked)| {
                table.item(&Item::new(record, if known { asked } else { &Asked::Unknown }, None), &view)
            };
            let items: String = samples().iter().map(item).collect();
            let text = table.head() + &items + &notes(known, &view);
            let wide: Vec<&str> = text.lines().filter(|line| line.chars().count() > columns).collect();
            assert!(wide.is_empty(), "{columns}: {wide:?}");
        }
    }
}

#[test]
fn transfers_through_the_body_are_marked() {
    let view = view(None);
    let table = Table::new(Names::JobAndRevision, true, &view);
    let marks = |radius: Option<f64>| -> Vec<usize> {
        let samples = samples();
        let marked = |(record, asked): &(Record, Asked)| {
            table.item(&Item::new(record, asked, radius), &view).matches("WARNING").count()
        };
        samples.iter().map(marked).collect()
    };
    assert_eq!(marks(None), [0, 0, 1, 1, 0, 0]);
    assert_eq!(marks(Some(1.0)), [0; 6]);
    assert_eq!(marks(Some(7001.0)), [0, 1, 1, 2, 1, 0]);
}
