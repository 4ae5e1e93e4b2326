//! Finds the known word that a mistyped one resembles, for "did you mean".

/// Returns the known word that is nearest to `word`, if it is near enough: at most one change for each three letters, and three in all.
pub fn similar<'a>(word: &str, known: impl Iterator<Item = &'a str>) -> Option<&'a str> {
    let most = (word.trim_start_matches('-').chars().count() / 3).clamp(1, 3);
    let near = known.map(|other| (distance(word, other), other)).filter(|(changes, _)| *changes <= most);
    near.min_by_key(|(changes, _)| *changes).map(|(_, other)| other)
}

/// Returns the number of changes between two words. A change is a letter added, removed or replaced, or two
/// neighbouring letters exchanged. A word that is far too long is not measured.
fn distance(one: &str, other: &str) -> usize {
    let (a, b): (Vec<char>, Vec<char>) = (one.chars().take(40).collect(), other.chars().collect());
    let mut rows = vec![vec![0; b.len() + 1]; a.len() + 1];
    for i in 0..=a.len() {
        for j in 0..=b.len() {
            rows[i][j] = if i == 0 || j == 0 {
                i + j
            } else {
                let replaced = rows[i - 1][j - 1] + usize::from(a[i - 1] != b[j - 1]);
                let best = replaced.min(rows[i - 1][j] + 1).min(rows[i][j - 1] + 1);
                let exchanged = i > 1 && j > 1 && a[i - 1] == b[j - 2] && a[i - 2] == b[j - 1];
                if exchanged {
                    best.min(rows[i - 2][j - 2] + 1)
                } else {
                    best
                }
            };
        }
    }
    rows[a.len()][b.len()]
}

#[cfg(test)]
mod tests {
    use super::*;

    #[test]
    fn changes_are_counted() {
        for (one, other, changes) in
            [("", "", 0), ("abc", "abc", 0), ("abc", "", 3), ("sovle", "solve", 1), ("kitten", "sitting", 3)]
        {
            assert_eq!((distance(one, other), distance(other, one)), (changes, changes), "{one} {other}");
        }
    }

    #[test]
    fn only_near_words_are_suggested() {
        let known = || ["ask", "solve", "show", "board"].into_iter();
        assert_eq!(similar("sovle", known()), Some("solve"));
        assert_eq!(similar("shwo", known()), Some("show"));
        assert_eq!(similar("boards", known()), Some("board"));
        assert_eq!(similar("sing", known()), None);
        assert_eq!(similar(&"x".repeat(100_000), known()), None);
    }
}
