//! Bytes as lines, each ended by one LF.

/// Returns the `N` lines without their LF. Returns None if the bytes aren't exactly `N` lines, each ended by
/// LF.
pub fn lines<const N: usize>(bytes: &[u8]) -> Option<[&[u8]; N]> {
    let all: Vec<&[u8]> = bytes.strip_suffix(b"\n")?.split(|&b| b == b'\n').collect();
    all.try_into().ok()
}

#[cfg(test)]
mod tests {
    use super::*;

    #[test]
    fn each_line_is_ended() {
        assert_eq!(lines(b"a\nb c\n"), Some([&b"a"[..], b"b c"]));
        assert_eq!(lines(b"\n\n"), Some([&b""[..], b""]));
        for bytes in [&b""[..], b"\n", b"a\n", b"a\nb", b"a\nb\n\n", b"\na\nb\n", b"a\nb\nc\n"] {
            assert_eq!(lines::<2>(bytes), None);
        }
    }

    #[test]
    fn a_carriage_return_is_part_of_its_line() {
        assert_eq!(lines(b"a\r\n"), Some([&b"a\r"[..]]));
    }
}
