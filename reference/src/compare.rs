//! Counts the records of a file, and finds where two files of records differ.

use crate::record::{split, Record};
use crate::wire::QUESTION_SIZE;
use std::collections::BTreeMap;

/// Returns the number of records, then the counts of answers by their number of entries, of refusals by
/// their number and of parts that aren't records, one line each.
pub fn tally(answers: &[u8]) -> String {
    let records = split(answers);
    let mut kinds: BTreeMap<(u8, u16), u64> = BTreeMap::new();
    for bytes in &records {
        let kind = match Record::read(bytes).map(|r| r.outcome) {
            Some(Ok(entries)) => (0, entries.len() as u16),
            Some(Err(refusal)) => (1, refusal.number()),
            None => (2, 0),
        };
        *kinds.entry(kind).or_default() += 1;
    }
    let line = |(&(kind, n), count): (_, &u64)| match kind {
        0 => format!("answers with {n} entries: {count}\n"),
        1 => format!("refusals with number {n}: {count}\n"),
        _ => format!("no records: {count}\n"),
    };
    let lines: String = kinds.iter().map(line).collect();
    format!("records: {}\n{lines}", records.len())
}

/// Describes the first slot whose records differ: the question, and each file's name and record. Returns
/// None if all bytes are equal.
pub fn difference(questions: &[u8], files: [(&str, &[u8]); 2]) -> Option<String> {
    let [a, b] = files.map(|(_, bytes)| split(bytes));
    if a == b {
        return None;
    }
    let i = (0..).find(|&i| a.get(i) != b.get(i))?;
    let asked = questions.chunks(QUESTION_SIZE).nth(i);
    let rows = [("asked", asked), (files[0].0, a.get(i).copied()), (files[1].0, b.get(i).copied())];
    let lines: String = rows.iter().map(|(name, bytes)| format!("{name}: {}\n", hex(*bytes))).collect();
    Some(format!("slot {i} differs\n{lines}"))
}

fn hex(bytes: Option<&[u8]>) -> String {
    let digits = |bytes: &[u8]| bytes.iter().map(|b| format!("{b:02x}")).collect();
    bytes.map_or("nothing".into(), digits)
}

#[cfg(test)]
mod tests {
    use super::*;
    use crate::questions::document;
    use crate::record::replies;

    fn written(slots: &[u8]) -> Vec<u8> {
        replies(slots).flatten().collect()
    }

    #[test]
    fn a_tally() {
        let slots = [&document().write()[..], &document().write(), &[1, 2, 3]].concat();
        let expected = "records: 3\nrefusals with number 1: 1\nrefusals with number 11: 2\n";
        assert_eq!(tally(&written(&slots)), expected);
        assert_eq!(tally(&[]), "records: 0\n");
        assert_eq!(tally(&[9; 5]), "records: 1\nno records: 1\n");
    }

    #[test]
    fn the_first_difference() {
        let slots = [document().write(), document().write()].concat();
        let good = written(&slots);
        let told = |a: &[u8], b: &[u8]| difference(&slots, [("one", a), ("other", b)]);
        assert_eq!(told(&good, &good), None);
        let mut bad = good.clone();
        bad[16 + 14] = 13;
        let changed = told(&bad, &good).unwrap();
        assert!(changed.starts_with("slot 1 differs\nasked: 4e000000"), "{changed}");
        assert!(changed.contains("one: 0c000000030007000000020000000d00\n"), "{changed}");
        let short = told(&good, &good[..16]).unwrap();
        assert!(short.starts_with("slot 1") && short.ends_with("other: nothing\n"), "{short}");
    }
}
