//! What number 11 says of one question. Nothing was found, so the times of all shapes searched are on one side of the time
//! asked for, and the time at the last station tells which. Then more can be said than for the number alone.

use crate::proved::{self, known};
use crate::wire::Question;
use crate::words::duration;
use std::cmp::Ordering;

/// On which side of the time asked for the shapes searched are, with the time at the last station in seconds.
#[derive(Debug, PartialEq)]
enum Side {
    /// No shape searched takes less than the time asked for.
    NoneFaster(f64),
    /// Every shape searched takes less than the time asked for.
    AllFaster(f64),
}

/// Returns one sentence for a question that was refused with 11, or `None` if the times do not tell.
pub fn short(question: &Question) -> Option<String> {
    let revolutions = question.revolutions > 0;
    Some(match (side(question)?, revolutions) {
        (Side::NoneFaster(last), false) => format!(
            "the fastest shape searched takes {}; a faster transfer exists beyond the search",
            duration(last)
        ),
        (Side::NoneFaster(_), true) => {
            "no shape searched is fast enough; this does not say that no transfer exists".into()
        }
        (Side::AllFaster(_), _) => {
            "every shape searched takes less time; a slower transfer exists beyond the search".into()
        }
    })
}

/// Returns what follows for a question that was refused with 11, in full, or `None` if the times do not tell.
pub fn words(question: &Question) -> Option<String> {
    let asked = duration(question.time);
    Some(match (side(question)?, question.revolutions > 0) {
        (Side::NoneFaster(last), false) => format!(
            "Here the time asked for, {asked}, is below the time of the fastest shape searched, {} at x = 4. \
             So a transfer does exist, a faster hyperbola beyond x = 4, and the search does not reach it",
            duration(last)
        ),
        (Side::NoneFaster(_), true) => format!(
            "Here no shape searched is as fast as the time asked for, {asked}. With whole \
             revolutions there is a least time, so more time or fewer revolutions may help. If the time \
             asked for is barely above the least time, two transfers may lie between two steps"
        ),
        (Side::AllFaster(_), _) => format!(
            "Here the time asked for, {asked}, is above the time of every shape searched. So a transfer does \
             exist, a slower ellipse beyond the ends of the range, and the search does not reach it"
        ),
    })
}

/// Returns what to do about a question that was refused with 11, or `None` if the times do not tell.
pub fn advice(question: &Question) -> Option<String> {
    Some(match (side(question)?, question.revolutions > 0) {
        (Side::NoneFaster(last), false) => {
            format!("ask for at least {}, or use another solver for the faster transfer", duration(last))
        }
        (Side::NoneFaster(_), true) => "ask for more time, or for fewer revolutions".into(),
        (Side::AllFaster(_), _) => "ask for less time, or for more revolutions".into(),
    })
}

fn side(question: &Question) -> Option<Side> {
    let slot = question.bytes();
    let last = proved::station(proved::station_count(&slot).checked_sub(1)?);
    let (time, wanted) = (known(proved::time(&slot, last))?, known(proved::wanted(&slot))?);
    let seconds = time / wanted * question.time;
    match time.partial_cmp(&wanted)? {
        Ordering::Less => Some(Side::AllFaster(seconds)),
        Ordering::Greater => Some(Side::NoneFaster(seconds)),
        // Then the transfer at the last station itself takes the time asked for, which is not a crossing.
        Ordering::Equal => None,
    }
}

#[cfg(test)]
mod tests {
    use super::*;
    use crate::proved::record_of;

    fn question(time: f64, revolutions: u16) -> Question {
        let (r1, r2, mu) = ([6778.0, 0.0, 0.0], [0.0, 42164.0, 0.0], 398_600.441_8);
        Question { job: 1, revision: 1, revolutions, long_way: false, r1, r2, mu, time }
    }

    fn is_refused_with_11(question: &Question) -> bool {
        let record = record_of(&question.bytes());
        record[4] == 3 && record[14] == 11
    }

    #[test]
    fn a_faster_transfer_is_said_outright() {
        let fast = question(1_800.0, 0);
        assert!(is_refused_with_11(&fast));
        let said = words(&fast).expect("times");
        assert!(said.starts_with("Here the time asked for, 30 min, is below the time of the fastest shape"));
        assert!(said.contains("So a transfer does exist, a faster hyperbola beyond x = 4"));
        assert!(short(&fast).expect("times").ends_with("a faster transfer exists beyond the search"));
        // The time at the last station is where the answers begin.
        let Some(Side::NoneFaster(last)) = side(&fast) else { panic!("a side") };
        assert!(is_refused_with_11(&question(last * 0.9999, 0)));
        assert!(!is_refused_with_11(&question(last * 1.0001, 0)));
    }

    #[test]
    fn with_revolutions_more_time_may_help() {
        let early = question(21_600.0, 2);
        assert!(is_refused_with_11(&early));
        assert!(words(&early).expect("times").starts_with("Here no shape searched is as fast"));
    }

    #[test]
    fn a_slower_transfer_is_said_outright() {
        for revolutions in [0, 1] {
            let slow = question(1e12, revolutions);
            assert!(is_refused_with_11(&slow));
            assert!(words(&slow).expect("times").contains("a slower ellipse beyond the ends of the range"));
            assert!(short(&slow).expect("times").contains("a slower transfer exists"));
        }
    }

    #[test]
    fn a_question_refused_at_the_entrance_has_no_side() {
        assert_eq!(words(&question(0.5, 0)), None);
        assert_eq!(short(&question(0.5, 0)), None);
    }
}
