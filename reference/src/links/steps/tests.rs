//! Tests the frames and lines on examples.

use super::*;
use crate::questions::document;

#[test]
fn a_line_of_each_step() {
    let q = document().write();
    let wrong = [77, 0, 0, 0, 9];
    let steps = [
        Step::Piece(q[..40].to_vec()),
        Step::Piece(vec![]),
        Step::Piece([&q[40..], &q[..3]].concat()),
        Step::End,
        Step::Piece([&q[..], &wrong].concat()),
        Step::Piece(vec![1, 2]),
        Step::Piece(vec![]),
        Step::End,
        Step::End,
    ];
    let asked = words(&q);
    assert!(
        asked.starts_with("000700010000004e")
            && asked.ends_with("0000000000003ff0")
            && asked.len() == 11 * 16
    );
    let first = format!("N40N0Q42={asked}N3 K3=000000000000004e\n");
    let second = format!("Q82={asked}R5B0B0 K0=!\n");
    let frames: Vec<u8> = steps.iter().flat_map(Step::frame).collect();
    assert_eq!(lines(&frames), Some([first, second, " K0=\n".into()].concat()));
}

#[test]
fn the_longest_piece() {
    assert_eq!(lines(&[&[0, 0x10][..], &[0; 4096]].concat()), Some("R4096".into()));
    assert_eq!(lines(&[&[1, 0x10][..], &[0; 4097]].concat()), None);
}

#[test]
fn what_is_no_step() {
    for bytes in [&[1][..], &[2, 0, 7], &[0xFE, 0xFF]] {
        assert_eq!(lines(bytes), None);
    }
    assert_eq!(lines(&[]), Some(String::new()));
}

#[test]
fn frames() {
    assert_eq!(Step::Piece(vec![9, 8, 7]).frame(), [3, 0, 9, 8, 7]);
    assert_eq!(Step::Piece(vec![]).frame(), [0, 0]);
    assert_eq!(Step::End.frame(), [0xFF, 0xFF]);
}
