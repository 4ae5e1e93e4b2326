//! Reads a Rattle file as Rust. What only the prover reads is left out: the items `ghost use ..;`, the clauses
//! `requires { .. }` and `ensures .. { .. }` of a function, and the attributes `#[tactic(..)]`. Each of these begins on
//! a line of its own and may go on over several lines. Comments are left out too.

/// What is replaced in each line. The file becomes a module beside the others of its crate. Their parent has the
/// wrapping operations.
const REPLACED: [(&str, &str); 3] = [
    ("std::num::wrapping_sub_u64(", "super::wrapping_sub_u64("),
    ("std::num::wrapping_add_u64(", "super::wrapping_add_u64("),
    ("crate::", "super::"),
];

/// Returns the file as Rust, or the first line that does not have the expected form.
pub fn as_rust(source: &str) -> Result<String, String> {
    let mut rust = String::new();
    let mut lines = source.lines().filter(|line| !is_comment(line));
    while let Some(line) = lines.next() {
        if let Some(is_whole) = for_the_prover(line) {
            let mut text = line.to_string();
            while !is_whole(&text) {
                text += lines.next().ok_or(line)?;
            }
            continue;
        }
        let new = REPLACED.iter().fold(line.to_string(), |line, (rattle, new)| line.replace(rattle, new));
        if !is_rust(&new) {
            return Err(line.into());
        }
        rust += &new;
        rust += "\n";
    }
    Ok(rust)
}

fn is_comment(line: &str) -> bool {
    line.trim_start().starts_with("//")
}

/// If only the prover reads what begins on the line, returns how to tell that a text has all of it.
fn for_the_prover(line: &str) -> Option<fn(&str) -> bool> {
    let start = line.trim_start();
    let begins = |words: &[&str]| words.iter().any(|word| start.starts_with(word));
    if begins(&["ghost use "]) {
        Some(|text| text.ends_with(';'))
    } else if begins(&["requires ", "ensures ", "requires* ", "ensures* "]) {
        Some(|text| text.ends_with('}') && is_balanced(text, '{', '}'))
    } else if begins(&["#[tactic(", "#![tactic("]) {
        Some(|text| text.ends_with(']') && is_balanced(text, '[', ']'))
    } else {
        None
    }
}

fn is_balanced(text: &str, opens: char, closes: char) -> bool {
    text.matches(opens).count() == text.matches(closes).count()
}

/// Reports whether the line has nothing that only the prover reads, and no operation of Rattle's library.
fn is_rust(line: &str) -> bool {
    let rattle = ["ghost", "requires", "ensures", "tactic", "prove!", "std::num::"];
    line.is_ascii() && rattle.iter().all(|word| !line.contains(word))
}
