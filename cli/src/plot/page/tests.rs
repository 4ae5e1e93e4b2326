use super::*;
use crate::orbit::x_of;
use crate::plot::curve::Place;
use crate::plot::svg::escaped;
use crate::reason::Reason;
use crate::refusal;
use crate::wire::{Entry, Refusal};

fn question() -> Question {
    Question::read(&include_bytes!("../../../../samples/questions")[..82]).expect("a question")
}

fn entry(low: i64) -> Entry {
    Entry { low, halvings: 18, upper_chosen: true, v1: [1.0; 3], v2: [2.0; 3] }
}

/// A falling curve with some void stations: ten of reason 2 and, far from them, one of reason 4.
fn curve(chosen: Vec<Place>) -> Curve {
    let time = |i: i32| match i {
        50..60 => Err(Reason(2)),
        5_000 => Err(Reason(4)),
        _ => Ok(1e6 / f64::from(i + 1)),
    };
    let stations = (0..8_191).map(|i| (f64::from(i - 4_095) / 4_096.0, time(i))).collect();
    Curve { wanted: 300.0, stations, chosen }
}

/// Reports whether tags are closed in the right order, attributes are quoted and characters are escaped.
fn is_well_formed(text: &str) -> bool {
    let mut open = Vec::new();
    for part in text.split('<').skip(1) {
        let Some((tag, words)) = part.split_once('>') else { return false };
        let name = tag.split([' ', '/']).next().unwrap_or_default();
        let closes = tag.strip_prefix('/');
        if closes.is_some_and(|name| open.pop() != Some(name)) {
            return false;
        }
        if closes.is_none() && !tag.ends_with('/') {
            open.push(name);
        }
        let entity = |after: &str| ["amp;", "lt;", "gt;", "quot;"].iter().any(|name| after.starts_with(name));
        if words.contains('>') || !part.split('&').skip(1).all(entity) || tag.matches('"').count() % 2 == 1 {
            return false;
        }
    }
    open.is_empty()
}

#[test]
fn every_refusal_is_told() {
    for number in 2..=14 {
        let curve = curve(Vec::new());
        let refusal = if number == 12 { Refusal::incomplete(-4045, 2) } else { Refusal::plain(number) };
        let page = page(&question(), &Outcome::Refused(refusal), Some(&curve).filter(|_| number > 10), None);
        assert!(is_well_formed(&page));
        let words = format!("refused {number}: {}", refusal::words(refusal));
        assert!(page.contains(&escaped(&words)), "in the description");
        let lines = page.replace("</text>", "").replace('\n', " ");
        for word in words.split(' ') {
            assert!(lines.contains(&escaped(word)), "{number}: {word}");
        }
        assert_eq!(page.contains("class=\"curve\""), number > 10);
        assert_eq!(page.contains("T* = 300"), number > 10);
    }
}

#[test]
fn every_bracket_is_there() {
    for count in 1..=8 {
        let entries: Vec<Entry> = (0..count).map(|i| entry(i << 28)).collect();
        let chosen = entries.iter().map(|entry| (x_of(entry.chosen()), Ok(300.0))).collect();
        let page = page(&question(), &Outcome::Answered(entries), Some(&curve(chosen)), None);
        assert!(is_well_formed(&page) && page.len() < 100_000, "{} {}", page.len(), is_well_formed(&page));
        assert_eq!(page.matches("class=\"bracket\"").count(), count as usize);
        assert_eq!(page.matches("upper end, h = 18").count(), 3 * count as usize);
        assert!(page.contains("1: ellipse, x = 0.000000000931, upper end, h = 18"));
    }
}

#[test]
fn void_stations_are_marked_and_counted_by_their_reasons() {
    let outcome = Outcome::Refused(Refusal::incomplete(-4045, 2));
    let page = page(&question(), &outcome, Some(&curve(Vec::new())), None);
    assert_eq!(page.matches("class=\"void\"").count(), 2);
    for (reason, count) in [(2, 10), (4, 1)] {
        let style = voids::style(Reason(reason));
        assert_eq!(page.matches(&style).count(), 2, "in the graph and in the legend");
        let words = voids::words(Reason(reason), count);
        assert!(page.contains(&format!("Void stations: {words}. ")), "in the description");
        let lines: Vec<String> = layout::texts(&page).into_iter().map(|(words, _)| words).collect();
        assert!(lines.join(" ").contains(&format!("void stations: {words}")), "in the legend");
    }
    assert!(page.contains("8191 stations, 11 of them void") && !page.contains("none of them void"));
    assert!(page.contains("Here the first void station is j = -4045, x = -0.987548828125, reason 2: "));
    assert_eq!(layout::faults(&page), [""; 0]);
}

/// Every text fits its space, whatever station and reason a record names.
#[test]
fn strange_void_stations_are_told() {
    for (j, reason) in [(i32::MIN, 0), (i32::MAX, u16::MAX), (16_385, 5)] {
        let outcome = Outcome::Refused(Refusal::incomplete(j, reason));
        let stations = vec![(0.0, Ok(1.0)), (0.25, Err(Reason(reason)))];
        let page =
            page(&question(), &outcome, Some(&Curve { wanted: 300.0, stations, chosen: Vec::new() }), None);
        assert!(is_well_formed(&page) && layout::faults(&page).is_empty());
        assert!(page.contains(&format!("Void stations: 1, reason {reason}: not a reason of the rules")));
        assert!(
            page.contains(&format!("j = {j}, x = ")) && page.contains("(not a station: j is -4095 to 16384)")
        );
    }
}

#[test]
fn the_check_sees_faults() {
    for text in ["<a>", "<a></b>", "<a b=\"></a>", "<a>&</a>", "<a>&b;</a>", "<a>></a>", "<a"] {
        assert!(!is_well_formed(text), "{text}");
    }
    assert!(is_well_formed("<a b=\"1\"><c/>x &lt; y</a>\n"));
}

/// The time asked for is 10 hours, so the label 10 of the axis at the right is at the height of the wanted time.
#[test]
fn the_axis_at_the_right_tells_the_time_of_flight() {
    let (r1, r2, mu) = ([7_000.0, 0.0, 0.0], [0.0, 42_164.0, 0.0], 398_600.441_8);
    for revolutions in [0, 1] {
        let asked = Question { r1, r2, mu, time: 36_000.0, revolutions, ..question() };
        let (_, page) = drawn(&asked, None);
        assert!(page.contains(">time in hours<"));
        let height = |element: &str, sign: &str, name: &str| -> f64 {
            let tag = page.split(element).find(|tag| tag.contains(sign)).expect(sign);
            tag.split(name).nth(1).and_then(|y| y.split('"').next()?.parse().ok()).expect("a height")
        };
        let wanted = height("<line", "class=\"wanted\"", " y1=\"");
        let label = height("<text", "class=\"time\">10<", " y=\"");
        assert!((label - 4.5 - wanted).abs() < 0.11, "{label}, {wanted}");
    }
}

/// The jobs, revisions, revolutions and ways of the extreme questions.
const KINDS: [(u32, u32, u16, bool); 4] =
    [(1, 0, 0, false), (u32::MAX, u32::MAX, 0, true), (7, 1, 1, true), (u32::MAX, u32::MAX, 16, false)];

/// Questions with numbers of many digits, for which every kind of outcome is found.
fn extreme() -> Vec<Question> {
    let (small, large) = (1.234_567_890_123_456_7e-300, 1.234_567_890_123_456_7e300);
    let mut questions = Vec::new();
    let mut ask = |r1: [f64; 3], r2: [f64; 3], mu: f64, time: f64| {
        let (job, revision, revolutions, long_way) = KINDS[questions.len() % 7 % 4];
        questions.push(Question { job, revision, revolutions, long_way, r1, r2, mu, time });
    };
    for time in [
        large,
        20.000_000_000_000_004,
        5_432.123_456_789_012,
        98_765.432_109_876_54,
        1.234_567_890_123_456_7e7,
        1e12,
    ] {
        ask([-large; 3], [-small; 3], large, time);
        ask(
            [-7_000.123_456_789_012, 12.345_678_901_234_567, 0.1],
            [-695_742_345.123_456_7; 3],
            398_600.441_8,
            time,
        );
        ask(
            [7_000.123_456_789_012, small, -small],
            [100.123_456_789_012_34, -7_000.5, 0.1],
            398_600.441_8,
            time,
        );
        ask(
            [-0.000_012_345_678_901_234_567, 1.0, 1.1],
            [-123_456_789_012.345_6, 1.0, -123_456_789_012.345_6],
            1.0,
            time,
        );
        ask([7_000.0, 0.0, 0.0], [7_000.0, 30.0, 0.0], 398_600.441_8, time);
        ask([7_000.0, 0.0, 0.0], [14_000.0, 0.1, 0.0], 398_600.441_8, time);
        ask([1.0, 0.0, 0.0], [-1.0, 0.001, 0.0], 1.152_921_504_606_846_9e18, time);
        ask([1.5e8, 0.0, 0.0], [0.1, 2.3e8, 1e6], 132_712_440_041.939_38, time);
    }
    questions
}

fn drawn(question: &Question, radius: Option<f64>) -> (Outcome, String) {
    let slot = question.bytes();
    let outcome = crate::wire::Record::of_question(&slot).ok().expect("a record").outcome;
    let curve = Curve::of(&slot, &outcome);
    let page = page(question, &outcome, curve.as_ref(), radius);
    (outcome, page)
}

#[test]
fn every_text_is_whole_and_fits_its_space() {
    let (mut answers, mut faults) = (0, Vec::new());
    for (i, question) in extreme().iter().enumerate() {
        let radius = [None, Some(6_378.137), Some(1.234_567_890_123_456_7e-300), Some(f64::MAX)][i % 4];
        let (outcome, page) = drawn(question, radius);
        assert!(is_well_formed(&page) && page.len() < 100_000 && !page.contains("NaN\""), "{question:?}");
        answers += usize::from(matches!(outcome, Outcome::Answered(_)));
        faults.extend(layout::faults(&page).into_iter().map(|fault| format!("{fault} in {question:?}")));
        // The lines of the question, joined, are its phrases: nothing is cut off.
        let texts = layout::texts(&page).into_iter().map(|(words, _)| words).collect::<Vec<_>>().join(" ");
        for phrase in crate::words::asked(question) {
            assert!(texts.contains(&phrase), "{phrase} is not in {texts}");
        }
    }
    assert!(answers > 10, "{answers}");
    assert!(faults.is_empty(), "{} faults: {:#?}", faults.len(), &faults[..faults.len().min(5)]);
}
