//! The rule for the eight texts of an orbit message.

pub const LONGEST_TEXT: usize = 60;

/// Reports whether the bytes are a legal text: 1 to 60 bytes of printable ASCII, with no blank first or last.
pub fn is_text(bytes: &[u8]) -> bool {
    let printable = bytes.iter().all(|b| (0x20..=0x7E).contains(b));
    let (Some(first), Some(last)) = (bytes.first(), bytes.last()) else {
        return false;
    };
    bytes.len() <= LONGEST_TEXT && printable && *first != b' ' && *last != b' '
}

#[cfg(test)]
mod tests {
    use super::*;

    #[test]
    fn one_to_sixty_bytes() {
        for size in 0..200 {
            assert_eq!(is_text(&vec![b'a'; size]), (1..=60).contains(&size), "{size}");
        }
    }

    #[test]
    fn printable_bytes() {
        for byte in 0..=255 {
            assert_eq!(is_text(&[b'a', byte, b'b']), (0x20..0x7F).contains(&byte), "{byte}");
            assert_eq!(is_text(&[byte]), (0x21..0x7F).contains(&byte), "{byte}");
        }
    }

    #[test]
    fn blanks_stand_inside_only() {
        assert!(is_text(b"EARTH = 3  X"));
        assert!(![&b" a"[..], b"a ", b" ", b"  ", b" a "].iter().any(|bytes| is_text(bytes)));
    }
}
