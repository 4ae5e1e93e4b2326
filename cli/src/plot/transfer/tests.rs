use super::*;
use crate::wire::Record;
use path::distance;

const EARTH: f64 = 398_600.441_8;

fn question(r1: [f64; 3], r2: [f64; 3], mu: f64, time: f64, revolutions: u16, long_way: bool) -> Question {
    Question { job: 1, revision: 1, revolutions, long_way, r1, r2, mu, time }
}

/// Ordinary questions around the earth: an ellipse, the long way, a hyperbola, three revolutions, and r1 close to r2.
fn ordinary() -> Vec<Question> {
    let (low, high) = ([7_000.0, 0.0, 0.0], [0.0, 42_164.0, 0.0]);
    vec![
        question(low, high, EARTH, 21_600.0, 0, false),
        question(low, high, EARTH, 43_200.0, 0, true),
        question(low, high, EARTH, 3_600.0, 0, false),
        question(low, [0.0, 7_200.0, 300.0], EARTH, 21_600.0, 3, false),
        question(low, [7_000.0, 100.0, 0.0], EARTH, 20.0, 0, false),
    ]
}

/// Questions with orbits as thin as a needle: r2 is far away and nearly on one line with r1.
fn needles() -> Vec<Question> {
    let mut questions = Vec::new();
    for (i, time) in [2.0e4, 3.0e6, 4.0e9, 1.1e11].into_iter().enumerate() {
        for distance in [2e7, 9.6e7, 2.6e8] {
            let r2 = [distance, 2e-4 * distance, 0.0];
            questions.push(question([274.0, 0.0, 0.0], r2, 2e6, time, 0, i % 2 == 0));
            questions.push(question([42.0, 0.0, 0.0], r2, 7e9, time, 10, i % 2 == 0));
        }
    }
    questions
}

fn transfers(question: &Question, radius: Option<f64>) -> Option<Transfers> {
    let outcome = Record::of_question(&question.bytes()).ok().expect("a record").outcome;
    Transfers::of(question, &outcome, radius)
}

#[test]
fn every_way_leads_from_r1_to_r2() {
    let mut count = 0;
    for question in ordinary().iter().chain(&needles()) {
        let Some(transfers) = transfers(question, None) else { continue };
        let ends: Vec<Point> = transfers.positions().map(|(_, place)| place).collect();
        let close = |step: Option<&Step>, place: Point| distance(step.expect("a step").place, place);
        for flown in &transfers.flights {
            let size = flown.way.iter().map(|step| step.place.0.hypot(step.place.1)).fold(0.0, f64::max);
            assert!(close(flown.way.first(), ends[0]) < 1e-3 * size, "{question:?}");
            assert!(close(flown.way.last(), ends[1]) < 1e-3 * size, "{question:?}");
            assert!(
                flown.way.len() + flown.rest.len() < 1_000
                    && flown.rest.is_empty() == (question.revolutions == 0)
            );
            if !flown.rest.is_empty() {
                assert!(close(flown.rest.first(), ends[1]) < 1e-3 * size, "{question:?}");
                assert!(close(flown.rest.last(), ends[0]) < 1e-3 * size, "{question:?}");
            }
            count += 1;
        }
    }
    assert!(count > 15, "{count}");
}

/// Two-body motion keeps the areal velocity, so the area that the way sweeps tells the time. The transfer takes the question's time.
#[test]
fn the_way_takes_the_time_asked_for() {
    for question in ordinary().iter().filter(|question| question.revolutions == 0) {
        let outcome = Record::of_question(&question.bytes()).ok().expect("a record").outcome;
        let transfers = Transfers::of(question, &outcome, None).expect("an answer");
        let Outcome::Answered(entries) = &outcome else { panic!("an answer") };
        for (flown, entry) in transfers.flights.iter().zip(entries) {
            let cross = |pair: &[Step]| pair[0].place.0 * pair[1].place.1 - pair[0].place.1 * pair[1].place.0;
            let area: f64 = flown.way.windows(2).map(|pair| 0.5 * cross(pair)).sum();
            let (r1, v1) = (question.r1[0], entry.v1);
            let time = 2.0 * area / (r1 * v1[1].hypot(v1[2]));
            assert!((time / question.time - 1.0).abs() < 2e-3, "{time} s, not {} s", question.time);
        }
    }
}

#[test]
fn what_is_below_the_surface_is_red_and_told() {
    let long = &ordinary()[1];
    let told = |radius: Option<f64>| {
        let transfers = transfers(long, radius).expect("an answer");
        let drawing = transfers.drawing(&transfers.view(0.0));
        (drawing.matches("class=\"below\"").count(), transfers.words().join(" ").replace('\u{a0}', " "))
    };
    let (red, words) = told(None);
    assert_eq!(red, 1);
    assert!(words.ends_with(
        "passes below the surface of earth: lowest 4937.9 km from the centre, radius 6378.137 km"
    ));
    let (red, words) = told(Some(4_900.0));
    assert_eq!(red, 0);
    assert!(words.ends_with("The disc is the body at the centre: earth, radius 4900 km no transfer passes below the surface of earth"));
    // Even the smallest dip is drawn and told.
    let lowest = transfers(long, None).expect("an answer").flights[0].arc.lowest();
    let (red, words) = told(Some(lowest * (1.0 + 1e-12)));
    assert_eq!(red, 1);
    assert!(words.contains("transfer 1 passes below the surface"), "{words}");
}

#[test]
fn the_centre_is_a_disc_a_dot_or_a_cross() {
    let seen = |mu: f64, radius: Option<f64>| {
        let question = question([1e5, 0.0, 0.0], [0.0, 2e5, 0.0], mu, 6e7 / mu.sqrt(), 0, false);
        let transfers = transfers(&question, radius).expect("an answer");
        let drawing = transfers.drawing(&transfers.view(0.0));
        (
            drawing.matches("class=\"body\"").count(),
            drawing.matches("class=\"centre\"").count(),
            transfers.words().join(" "),
        )
    };
    let (body, cross, words) = seen(EARTH, None);
    assert!((body, cross) == (1, 0) && words.contains("The disc is the body at the centre: earth"));
    let (body, cross, words) = seen(EARTH, Some(10.0));
    assert!(
        (body, cross) == (1, 0) && words.contains("The dot") && words.contains("drawn larger than to scale")
    );
    let (body, cross, words) = seen(1e5, None);
    assert!((body, cross) == (0, 2) && words.contains("radius is not known"));
}

/// The motion is counter-clockwise: seen on the page, where the second coordinate goes down, the ways turn to the left.
#[test]
fn the_motion_is_counter_clockwise() {
    for question in ordinary() {
        let transfers = transfers(&question, None).expect("an answer");
        let view = transfers.view(100.0);
        for flown in &transfers.flights {
            for pair in flown.way.windows(2) {
                let [a, b] = [pair[0], pair[1]].map(|step| view.at(step.place));
                let (ax, ay, bx, by) =
                    (a.0 - view.centre.0, a.1 - view.centre.1, b.0 - view.centre.0, b.1 - view.centre.1);
                assert!(ax * by - ay * bx <= 0.0, "{question:?}");
            }
        }
    }
}
