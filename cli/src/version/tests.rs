use super::{text, wrapped, UNKNOWN};

#[test]
fn a_short_fact_has_one_line() {
    assert_eq!(wrapped("commit", "unknown"), "commit      unknown\n");
}

#[test]
fn a_long_fact_fills_lines_of_100_columns() {
    let words = ["four"; 40].join(" ");
    let found = wrapped("proved", &words);
    let lines: Vec<&str> = found.lines().collect();
    let lengths: Vec<usize> = lines.iter().map(|line| line.len()).collect();
    assert_eq!(lengths, [96, 96, 41]);
    assert!(lines[1].starts_with("            four four") && lines[2].starts_with("            four"));
    assert_eq!(found.split_whitespace().skip(1).collect::<Vec<_>>().join(" "), words);
}

#[test]
fn every_line_has_up_to_100_columns() {
    let (fits, full) = ("x".repeat(84), "x".repeat(88));
    assert_eq!(wrapped("proved", &format!("one {fits}")).lines().count(), 1);
    assert_eq!(wrapped("proved", &format!("one {fits}x")).lines().count(), 2);
    assert_eq!(wrapped("proved", &format!("{full} {full} {full}")).lines().count(), 3);
    assert_eq!(wrapped("proved", &format!("{full} one {fits}")).lines().count(), 2);
}

/// The tests are compiled by cargo alone, so nothing is known of the build but its compiler.
#[test]
fn without_the_build_script_the_text_says_that_it_does_not_know() {
    let found = text();
    let lines: Vec<&str> = found.lines().collect();
    assert_eq!(lines[0], format!("lambert-cli {}", env!("CARGO_PKG_VERSION")));
    assert_eq!(lines[1], format!("commit      {UNKNOWN}"));
    assert!(lines[3].starts_with("compiler    rustc 1."));
    assert_eq!(found.matches(UNKNOWN).count(), 4);
}
