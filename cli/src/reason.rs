//! Why a place has no time.

/// The reason why a place is void, by its number. The rules have the numbers 1 to 4, but a record can have any number: no program
/// refuses a record because of it.
#[derive(Clone, Copy, Debug, PartialEq, Eq, PartialOrd, Ord)]
pub struct Reason(pub u16);

/// The bits of the NaN that stands for a void place, less the number of the reason.
const VOID: u64 = 0x7FF8_0000_0000_0000;

impl Reason {
    /// Returns the reason that the bits of a NaN stand for. Its number is 0 if they stand for none.
    pub fn of_bits(bits: u64) -> Reason {
        Reason(bits.checked_sub(VOID).and_then(|number| number.try_into().ok()).unwrap_or(0))
    }

    pub fn words(self) -> &'static str {
        match self.0 {
            1 => "lambda, the revolutions or x is out of range",
            2 => "the square root of a negative number, an infinity or a NaN is refused",
            3 => "a divisor is zero",
            4 => "the result is not finite",
            _ => "not a reason of the rules, which have 1 to 4",
        }
    }
}

#[cfg(test)]
mod tests {
    use super::*;

    #[test]
    fn the_bits_of_a_nan_give_the_number() {
        for number in [1, 2, 3, 4, 5, u16::MAX] {
            assert_eq!(Reason::of_bits(VOID + u64::from(number)), Reason(number));
        }
        for bits in [u64::MAX, VOID, VOID + 0x1_0000, 0x7FF0_0000_0000_0001, 0xFFF8_0000_0000_0001, 0] {
            assert_eq!(Reason::of_bits(bits), Reason(0), "{bits:x}");
        }
    }

    /// The words are those of the table in docs/FORMAT.md.
    #[test]
    fn each_reason_has_its_words() {
        let format = include_str!("../../docs/FORMAT.md");
        let rows = format.lines().skip_while(|line| !line.starts_with("| reason |"));
        let rows: Vec<&str> = rows.skip(2).take_while(|line| line.starts_with('|')).collect();
        let expected = (1..=4).map(|number| format!("| {number} | {} |", Reason(number).words()));
        assert_eq!(rows, expected.collect::<Vec<_>>());
        for number in [0, 5, u16::MAX] {
            assert!(Reason(number).words().starts_with("not a reason of the rules"));
        }
    }
}
