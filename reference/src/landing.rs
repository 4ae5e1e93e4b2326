//! The physical check of a solver's answers: does each flight arrive? It measures misses and doesn't compare bits.

use crate::entrance::{judge, ROOM};
use crate::kepler::{propagate, State};
use crate::record::{split, Record};
use crate::solve::Entry;
use crate::time::{time_at, x_of};
use crate::triangle::{square, wanted_time};
use crate::wire::{Question, Vector, QUESTION_SIZE};

/// The measured misses. Each is divided by the size of the expected vector.
const MISSES: [&str; 6] = [
    "r2, from r1 and v1 after the time",
    "v2, from r1 and v1 after the time",
    "r1, from r2 and v2 before the time",
    "v1, from r2 and v2 before the time",
    "r2, after the time of the place itself",
    "v2, after the time of the place itself",
];

const SHARES: [(&str, f64); 5] =
    [("median", 0.5), ("90 %", 0.9), ("99 %", 0.99), ("99.9 %", 0.999), ("max", 1.0)];
const LARGEST: usize = 5;

/// One entry of an answer, with its misses.
struct Landing {
    slot: usize,
    question: Question,
    x: f64,
    misses: [f64; MISSES.len()],
}

/// Reports the distribution of every miss over all entries, and the entries that miss r2 by the most.
pub fn report(questions: &[u8], answers: &[u8]) -> String {
    let mut all = landings(questions, answers);
    let mut text = format!("entries: {}\n{:38}", all.len(), "");
    SHARES.iter().for_each(|(name, _)| text += &format!(" {name:>9}"));
    for (i, name) in MISSES.iter().enumerate() {
        all.sort_by(|a, b| a.misses[i].total_cmp(&b.misses[i]));
        text += &format!("\n{name:38}");
        SHARES.iter().for_each(|(_, share)| text += &format!(" {:9.2e}", ranked(&all, i, *share)));
    }
    all.sort_by(|a, b| b.misses[0].total_cmp(&a.misses[0]));
    text += "\nthe largest misses of r2:\n";
    all.iter().take(LARGEST).for_each(|l| text += &l.line());
    text
}

/// Returns the value of miss number `i` that the given share of the entries doesn't exceed. The entries are
/// sorted by that miss.
fn ranked(sorted: &[Landing], i: usize, share: f64) -> f64 {
    let rank = (share * sorted.len() as f64).ceil() as usize;
    sorted.get(rank.saturating_sub(1)).map_or(f64::NAN, |l| l.misses[i])
}

fn landings(questions: &[u8], answers: &[u8]) -> Vec<Landing> {
    let slots = questions.chunks(QUESTION_SIZE).zip(split(answers)).enumerate();
    let mut all = Vec::new();
    for (slot, (bytes, record)) in slots {
        let outcome = Record::read(record).map(|r| r.outcome);
        if let (Some(question), Some(Ok(entries))) = (Question::read(bytes), outcome) {
            all.extend(entries.iter().map(|e| Landing::new(slot, question, e)));
        }
    }
    all
}

impl Landing {
    fn new(slot: usize, question: Question, e: &Entry) -> Landing {
        let q = &question;
        let [start, end] = [
            State { position: q.position1, velocity: e.velocities[0] },
            State { position: q.position2, velocity: e.velocities[1] },
        ];
        let k = e.lower + if e.upper_chosen { 1i64 << (20 - e.halvings.min(20)) } else { 0 };
        let forth = misses(propagate(start, q.mu, q.time), end);
        let back = misses(propagate(end, q.mu, -q.time), start);
        let own = misses(propagate(start, q.mu, time_of(q, k)), end);
        let misses = [forth[0], forth[1], back[0], back[1], own[0], own[1]];
        Landing { slot, question, x: x_of(k), misses }
    }

    fn line(&self) -> String {
        let q = &self.question;
        let (r1, r2, mu, time) = (q.position1, q.position2, q.mu, q.time);
        let (miss, m, way, x) = (self.misses[0], q.revolutions, q.way, self.x);
        format!(
            "  {miss:.2e} in slot {}: r1 {r1:?} r2 {r2:?} mu {mu:?} time {time:?} M {m} way {way} x {x:?}\n",
            self.slot
        )
    }
}

/// Returns the seconds that the place k takes, or NaN if the question is refused or the place is void.
fn time_of(q: &Question, k: i64) -> f64 {
    let Ok(p) = judge(&q.write(), ROOM) else { return f64::NAN };
    let time = time_at(p.triangle.lambda, k, p.revolutions);
    time.map_or(f64::NAN, |t| t / wanted_time(p.mu, p.triangle.semiperimeter, 1.0))
}

/// Returns by how much the position and the velocity miss the expected ones, divided by the sizes of the expected ones.
fn misses(found: State, expected: State) -> [f64; 2] {
    let apart = |a: Vector, b: Vector| square(std::array::from_fn(|i| a[i] - b[i])).sqrt() / square(b).sqrt();
    [apart(found.position, expected.position), apart(found.velocity, expected.velocity)]
}

#[cfg(test)]
mod tests {
    use super::*;
    use crate::questions::document;
    use crate::record::replies;

    fn flown(time: f64) -> (Vec<u8>, Vec<u8>) {
        let q = Question { revolutions: 0, time, ..document() }.write();
        (q.to_vec(), replies(&q).flatten().collect())
    }

    #[test]
    fn an_answer_lands_and_a_changed_one_does_not() {
        let (q, mut a) = flown(1.4);
        let all = landings(&q, &a);
        assert_eq!(all.len(), 1);
        assert!(all[0].misses.iter().all(|&miss| miss < 1e-9), "{:?}", all[0].misses);
        let wrong = flown(1.5).1;
        a[32..].copy_from_slice(&wrong[32..]);
        let miss = landings(&q, &a)[0].misses[0];
        assert!(miss > 0.01, "{miss}");
    }

    #[test]
    fn refusals_have_no_entries() {
        let q = document().write();
        let a: Vec<u8> = replies(&q).flatten().collect();
        assert!(report(&q, &a).starts_with("entries: 0\n"));
    }

    #[test]
    fn shares_are_ranked() {
        let one = landings(&flown(1.4).0, &flown(1.4).1).remove(0).question;
        let landing = |i: usize| Landing { slot: i, question: one, x: 0.0, misses: [i as f64; 6] };
        let all: Vec<Landing> = (1..=1000).map(landing).collect();
        assert_eq!(SHARES.map(|(_, share)| ranked(&all, 0, share)), [500.0, 900.0, 990.0, 999.0, 1000.0]);
        assert_eq!(ranked(&all[..1], 0, 0.5), 1.0);
    }
}
