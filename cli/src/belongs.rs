//! Whether a record can be the solver's record of a question. The job and the revision do not tell: a question may have been changed
//! since. The proved times show most changes: an entry's bracket has times on different sides of the time asked for, and with number 11
//! all stations are on one side; the station that number 12 names is void. The velocities show a change that keeps the times, such as
//! positions that are exchanged or turned.

use crate::proved;
use crate::reason::Reason;
use crate::vectors::{cross, size};
use crate::wire::{Entry, Outcome, Question, Refusal, VoidStation};

/// Returns why the outcome cannot be that of the question, or `None` if no reason was found. The question is well-formed.
pub fn fault(question: &Question, outcome: &Outcome) -> Option<String> {
    let slot = question.bytes();
    match (proved::station_count(&slot), outcome) {
        (0, Outcome::Answered(_) | Outcome::Refused(Refusal { number: 11..=14, .. })) => {
            Some("the question is refused before the search, but the record is that of a search".into())
        }
        // Number 7 depends on the buffer of the program that asked the solver.
        (0, Outcome::Refused(_)) | (_, Outcome::Refused(Refusal { number: 7, .. })) => None,
        (_, Outcome::Refused(Refusal { number: number @ ..=10, .. })) => Some(format!(
            "the record is refusal {number}, but the question passes the checks before the search"
        )),
        (count, Outcome::Refused(Refusal { number: 11, .. })) => stations_differ(&slot, count)?
            .then(|| "the record says that nothing was found, but the search finds a transfer".into()),
        (count, Outcome::Refused(Refusal { void: Some(void), .. })) => {
            let first = proved::station(0);
            let has = (first..=proved::station(count - 1)).contains(&void.k());
            not_void(*void, has.then(|| proved::time_or_reason(&slot, void.k())))
        }
        (_, Outcome::Refused(_)) => None,
        (_, Outcome::Answered(entries)) => {
            let wrong = |entry: &Entry| {
                let [low, high] = [entry.low, entry.low + entry.width()].map(|k| is_below(&slot, k));
                low.is_none() || high.is_none() || low == high
            };
            if let Some(at) = entries.iter().position(wrong) {
                return Some(format!("transfer {} of the record does not take the time asked for", at + 1));
            }
            let at = entries.iter().position(|entry| !fits(question, entry))?;
            Some(format!("the velocities of transfer {} of the record do not fit the positions", at + 1))
        }
    }
}

/// Returns why a record cannot name this void station, or `None` if it can. `found` is what the question has at that station, or
/// `None` if it has no such station.
fn not_void(void: VoidStation, found: Option<Result<f64, Reason>>) -> Option<String> {
    let VoidStation { j, reason } = void;
    let but = match found {
        None => "the question has no such station".into(),
        Some(Ok(_)) => "that station has a time".into(),
        Some(Err(other)) if other != reason => format!("its reason is {}, not {}", other.0, reason.0),
        Some(Err(_)) => return None,
    };
    Some(format!("the record says that the station j = {j} is void, but {but}"))
}

/// How far the angular momenta at both ends of a transfer may differ, as a part of distance times speed. They are equal but for
/// rounding, which is below 2^-20 even if the positions are nearly on one line.
const ROUNDING: f64 = 1e-5;

/// Reports whether the angular momentum is the same at both ends, in size and direction, as it is on an orbit through r1 and r2.
fn fits(question: &Question, entry: &Entry) -> bool {
    let [first, second] = [cross(question.r1, entry.v1), cross(question.r2, entry.v2)];
    let scale = size(question.r1) * size(entry.v1) + size(question.r2) * size(entry.v2);
    let difference = size([0, 1, 2].map(|i| first[i] - second[i]));
    !scale.is_finite() || difference <= ROUNDING * scale
}

/// Reports whether stations on different sides of the time asked for were found. It looks at the first and the last station, and then
/// towards the least time, by thirds. Returns `None` if a station has no time.
fn stations_differ(slot: &[u8], count: u64) -> Option<bool> {
    let below = |i: u64| is_below(slot, proved::station(i));
    let (mut low, mut high) = (0, count - 1);
    let side = below(low)?;
    let mut differ = below(high)? != side;
    while !differ && high - low > 2 {
        let (left, right) = (low + (high - low) / 3, high - (high - low) / 3);
        differ = below(left)? != side || below(right)? != side;
        let [at_left, at_right] =
            [left, right].map(|i| proved::known(proved::time(slot, proved::station(i))));
        if at_left? < at_right? {
            high = right;
        } else {
            low = left;
        }
    }
    Some(differ)
}

/// Reports whether the time at a place is below the time asked for, or `None` if the place has no time.
fn is_below(slot: &[u8], k: i64) -> Option<bool> {
    let wanted = proved::known(proved::wanted(slot))?;
    Some(proved::known(proved::time(slot, k))? < wanted)
}

#[cfg(test)]
mod tests {
    use super::*;
    use crate::wire::{Record, SLOT};

    fn samples() -> Vec<(Question, Outcome)> {
        let slots = include_bytes!("../../samples/questions").chunks(SLOT);
        let pair = |slot| {
            (Question::read(slot).expect("one"), Record::of_question(slot).ok().expect("a record").outcome)
        };
        slots.map(pair).collect()
    }

    #[test]
    fn every_sample_has_its_record() {
        for (question, outcome) in samples() {
            assert_eq!(fault(&question, &outcome), None, "job {}", question.job);
        }
    }

    #[test]
    fn the_record_of_another_question_is_found() {
        let samples = samples();
        for (i, (question, _)) in samples.iter().enumerate() {
            for (j, (_, outcome)) in samples.iter().enumerate().filter(|(j, _)| *j != i) {
                assert!(fault(question, outcome).is_some(), "question {i}, record {j}");
            }
        }
    }

    /// A change of the time by a millionth is found.
    #[test]
    fn a_changed_time_is_found() {
        for (question, outcome) in
            samples().iter().filter(|(_, outcome)| matches!(outcome, Outcome::Answered(_)))
        {
            let changed = Question { time: question.time * 1.000_001, ..question.clone() };
            assert!(fault(&changed, outcome).is_some(), "job {}", question.job);
        }
    }

    /// The way back, a mirrored target and turned axes keep the times.
    #[test]
    fn other_positions_with_the_same_times_are_found() {
        for (question, outcome) in
            samples().iter().filter(|(_, outcome)| matches!(outcome, Outcome::Answered(_)))
        {
            let Question { r1, r2, .. } = *question;
            let turned = |[x, y, z]: [f64; 3]| [y, z, x];
            for (r1, r2) in [(r2, r1), (r1, r2.map(|part| -part)), (turned(r1), turned(r2))] {
                let changed = Question { r1, r2, ..question.clone() };
                assert!(fault(&changed, outcome).is_some(), "job {}", question.job);
            }
        }
    }

    #[test]
    fn refusals_after_the_search_need_a_search() {
        let samples = samples();
        let (searched, refused) = (&samples[1].0, &samples[5].0);
        let of = |number| Outcome::Refused(Refusal::plain(number));
        for number in [13, 14] {
            assert_eq!(fault(searched, &of(number)), None);
            assert!(fault(refused, &of(number)).is_some());
        }
        assert!(fault(refused, &Outcome::Refused(Refusal::incomplete(0, 1))).is_some());
        assert_eq!(fault(searched, &of(7)), None);
        assert!(fault(searched, &of(11)).is_some());
    }

    /// No station of a sample is void. The first sample has whole revolutions, so its last station is at j = 4095.
    #[test]
    fn a_station_with_a_time_is_not_void() {
        let samples = samples();
        let said = |i: usize, j| {
            fault(&samples[i].0, &Outcome::Refused(Refusal::incomplete(j, 1))).expect("a reason")
        };
        for (i, last) in [(0, 4_095), (1, 16_384)] {
            for j in [-4_095, 0, last] {
                assert!(said(i, j)
                    .ends_with(&format!("the station j = {j} is void, but that station has a time")));
            }
            for j in [i32::MIN, -4_096, last + 1, i32::MAX] {
                assert!(said(i, j).ends_with("but the question has no such station"), "{j}");
            }
        }
    }

    #[test]
    fn a_void_station_has_its_reason() {
        let void = VoidStation { j: 5, reason: Reason(2) };
        assert_eq!(not_void(void, Some(Err(Reason(2)))), None);
        let words = "the record says that the station j = 5 is void, but its reason is 3, not 2";
        assert_eq!(not_void(void, Some(Err(Reason(3)))).as_deref(), Some(words));
    }
}
