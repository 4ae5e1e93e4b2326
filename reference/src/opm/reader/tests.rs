//! Orbit messages that the reader accepts, and bytes that are nearly one.

use super::super::tests::message;
use super::*;

/// Returns the orbit message with the first occurrence of `old` replaced. Fails if there is none.
fn replaced(old: &str, new: &str) -> Vec<u8> {
    let message = String::from_utf8(message()).unwrap();
    assert!(message.contains(old), "{old}");
    message.replacen(old, new, 1).into_bytes()
}

/// Returns the orbit message with another value of X.
fn with_x(value: &str) -> Vec<u8> {
    replaced("\nX = 7000.000000000\n", &format!("\nX = {value}\n"))
}

fn is_read(message: &[u8]) -> bool {
    read(message).is_some()
}

#[test]
fn numbers_in_the_exact_form() {
    for (value, negative, whole, billionths) in [
        ("0.000000000", false, 0, 0),
        ("0.000000001", false, 0, 1),
        ("-0.000000001", true, 0, 1),
        ("-10.500000000", true, 10, 500_000_000),
        ("9999999.999999999", false, 9_999_999, 999_999_999),
        ("-9999999.999999999", true, 9_999_999, 999_999_999),
        ("1234567.012345678", false, 1_234_567, 12_345_678),
    ] {
        let numbers = read(&with_x(value)).unwrap();
        assert_eq!(numbers[0], Decimal { negative, whole, billionths }, "{value}");
        assert_eq!(numbers[3], Decimal { negative: true, whole: 1, billionths: 500_000_000 });
    }
}

#[test]
fn numbers_in_another_form() {
    for value in [
        "",
        "-",
        ".",
        "0",
        "-0",
        "7000",
        "7000.",
        "-0.000000000",
        "+0.000000000",
        "+7000.000000000",
        "00.500000000",
        "07000.000000000",
        "-07000.000000000",
        "0000000.000000000",
        ".500000000",
        "-.500000000",
        "0.50000000",
        "0.5000000000",
        "-0.50000000",
        "-0.5000000000",
        "10000000.000000000",
        "-10000000.000000000",
        "99999999.000000000",
        "7000,000000000",
        "7 000.000000000",
        " 7000.000000000",
        "7000.000000000 ",
        "- 1.000000000",
        "--1.000000000",
        "-+1.000000000",
        "1.000000000-",
        "1..000000000",
        "1.000000000.",
        "1.00000000.",
        "1.00.000000",
        "1.0000000e0",
        "1.00000000f",
        "1e3",
        "NaN",
        "inf",
        "0x1.000000000",
        "1.00000000/",
        "1.00000000:",
        "/.000000000",
        ":.000000000",
        "1.000000000 [km]",
        "1.000000000[km]",
        "1.000000000\r",
        "\t1.000000000",
        "1.000000000\0",
        "１.000000000",
        "1.00000000０",
    ] {
        assert!(!is_read(&with_x(value)), "{value:?}");
    }
}

#[test]
fn another_version_or_key() {
    for version in ["1.0", "3.0", "2", "2.", "2.00", "02.0", "2.1", "2.0 ", "", "12.0"] {
        assert!(!is_read(&replaced(" = 2.0\n", &format!(" = {version}\n"))), "{version}");
    }
    for (old, new) in [("X_DOT", "X_DDOT"), ("\nX =", "\nx ="), ("EPOCH", "EPOC"), ("EPOCH", "EPOCH_")] {
        assert!(!is_read(&replaced(old, new)), "{new}");
    }
    for between in ["=", "  = ", " =  ", " =", "= ", "\t= ", " = = ", " : ", " =\t", ""] {
        assert!(!is_read(&replaced("X = ", &format!("X{between}"))), "{between:?}");
    }
    assert!(!is_read(&replaced("OBJECT_ID = ", "OBJECT_ID =  ")));
}

#[test]
fn texts_as_the_writer_takes_them() {
    let text = |text: &[u8]| {
        let lines: Vec<_> = message().split_inclusive(|&b| b == b'\n').map(<[u8]>::to_vec).collect();
        let line = [b"OBJECT_NAME = ", text, b"\n"].concat();
        is_read(&[lines[..3].concat(), line, lines[4..].concat()].concat())
    };
    for right in [&b"="[..], b"= =", b"a  b", &[b'!'; 59], &[b'~'; 60], b"X = 1.0", b"!", b"~"] {
        assert!(text(right), "{right:02x?}");
    }
    let wrong =
        [&b""[..], &[b'a'; 61], b" ", b" a", b"a ", b"a\x1Fb", b"a\x7Fb", b"a\x80b", b"a\0", b"a\r", b"a\nb"];
    for wrong in wrong {
        assert!(!text(wrong), "{wrong:02x?}");
    }
}

#[test]
fn lines_in_another_form() {
    let right = message();
    assert!(is_read(&right) && !is_read(&[]) && !is_read(&[b'\n'; LINES]));
    assert!((0..right.len()).all(|size| !is_read(&right[..size])));
    assert!((1..right.len()).all(|from| !is_read(&right[from..])));
    let ends = [&b"\n"[..], b"\r\n", b" ", b"x", b"\0", b"COMMENT x\n"];
    assert!(!ends
        .iter()
        .any(|end| is_read(&[&right[..], end].concat()) || is_read(&[end, &right[..]].concat())));
    for (i, _) in right.iter().enumerate().filter(|(_, &b)| b == b'\n') {
        for new in [&b"\r\n"[..], b"\n\n", b"\r", b"", b" \n", b"\n ", b"\nCOMMENT x\n"] {
            assert!(!is_read(&[&right[..i], new, &right[i + 1..]].concat()), "{i} {new:02x?}");
        }
    }
}

#[test]
fn lines_in_another_order_or_number() {
    let lines: Vec<_> = message().split_inclusive(|&b| b == b'\n').map(<[u8]>::to_vec).collect();
    for i in 0..LINES {
        assert!(!is_read(&[&lines[..i], &lines[i + 1..]].concat().concat()), "without {i}");
        assert!(!is_read(&[&lines[..=i], &lines[i..]].concat().concat()), "twice {i}");
        for j in 0..i {
            let mut swapped = lines.clone();
            swapped.swap(i, j);
            assert!(!is_read(&swapped.concat()), "{i} and {j}");
        }
    }
}

#[test]
fn the_bytes_of_the_state() {
    let mut state = vec![0xB7; STATE_SIZE + 9];
    assert_eq!(read_state(&with_x("-12.000000034"), &mut state), Ok(()));
    let word = |i: usize| u64::from_le_bytes(state[8 * i..8 * i + 8].try_into().unwrap());
    assert_eq!([word(0), word(1), word(2)], [1, 12, 34]);
    assert_eq!([word(9), word(10), word(11)], [1, 1, 500_000_000]);
    assert_eq!([word(12), word(13), word(14)], [0, 9_999_999, 250_000_000]);
    assert_eq!([word(15), word(16), word(17)], [0, 0, 0]);
    assert_eq!(state[STATE_SIZE..], [0xB7; 9]);
}

/// Bytes that are not an orbit message give 10 whatever the room is. Both refusals leave the state unchanged.
#[test]
fn refusals_of_the_reader() {
    for room in 0..STATE_SIZE + 20 {
        let mut state = vec![0xB7; room];
        assert_eq!(read_state(&with_x("+1.000000000"), &mut state), Err(10));
        assert!(state.iter().all(|&b| b == 0xB7));
        let expected = if room < STATE_SIZE { Err(8) } else { Ok(()) };
        assert_eq!(read_state(&message(), &mut state), expected);
        assert!(expected.is_ok() || state.iter().all(|&b| b == 0xB7));
    }
}
