use super::*;
use crate::random::Random;

fn written(x: f64) -> String {
    Decimal::nearest(x).unwrap().to_string()
}

#[test]
fn ties_go_to_the_even_digit() {
    assert_eq!(written(1.0 / 1024.0), "0.000976562");
    assert_eq!(written(3.0 / 1024.0), "0.002929688");
    assert_eq!(written(-1.0 / 1024.0), "-0.000976562");
    assert_eq!(written(-3.0 / 1024.0), "-0.002929688");
    assert_eq!(written(9_999_999.0 + 1023.0 / 1024.0), "9999999.999023438");
}

#[test]
fn the_neighbours_of_a_tie_go_to_their_own_side() {
    for (tie, below, above) in
        [(1.0 / 1024.0, "0.000976562", "0.000976563"), (3.0 / 1024.0, "0.002929687", "0.002929688")]
    {
        assert_eq!([written(f64::next_down(tie)), written(f64::next_up(tie))], [below, above]);
    }
}

#[test]
fn zeros_and_what_rounds_to_zero_have_no_minus() {
    let least = f64::from_bits(1);
    let half = 0.5e-9;
    for x in [0.0, least, f64::MIN_POSITIVE, 1e-300, 4.9e-10, f64::next_down(half)] {
        assert_eq!(Decimal::nearest(x), Some(Decimal { negative: false, whole: 0, billionths: 0 }));
        assert_eq!([written(x), written(-x)], ["0.000000000", "0.000000000"], "{x:e}");
    }
    assert_eq!([written(5.1e-10), written(-5.1e-10)], ["0.000000001", "-0.000000001"]);
}

/// The floats nearest to 0.5 and 2.5 billionths lie above them, those nearest to 1.5 and 3.5 billionths
/// below.
#[test]
fn near_half_of_a_billionth() {
    assert_eq!([written(0.5e-9), written(-0.5e-9)], ["0.000000001", "-0.000000001"]);
    assert_eq!([written(1.5e-9), written(2.5e-9)], ["0.000000001", "0.000000003"]);
    assert_eq!(written(3.5e-9), "0.000000003");
}

#[test]
fn the_range_ends_below_ten_million() {
    let bound = 1e7;
    assert_eq!(written(f64::next_down(bound)), "9999999.999999998");
    assert_eq!(written(-f64::next_down(bound)), "-9999999.999999998");
    for x in [bound, f64::next_up(bound), 1e8, 2f64.powi(63), 1e300, f64::MAX, f64::INFINITY] {
        assert_eq!([Decimal::nearest(x), Decimal::nearest(-x)], [None, None], "{x:e}");
    }
}

#[test]
fn no_number_for_a_nan() {
    for bits in [0x7FF0_0000_0000_0001, 0x7FF8_0000_0000_0000, u64::MAX, u64::MAX >> 1] {
        assert_eq!(Decimal::nearest(f64::from_bits(bits)), None);
    }
}

#[test]
fn whole_numbers_and_a_carry() {
    assert_eq!(written(7.0), "7.000000000");
    assert_eq!(written(-9_999_999.0), "-9999999.000000000");
    assert_eq!(written(f64::next_down(1.0)), "1.000000000");
    assert_eq!(written(f64::next_down(1e6)), "1000000.000000000");
    assert_eq!(written(0.999_999_999_4), "0.999999999");
    assert_eq!(written(9.999_999_999_6), "10.000000000");
}

#[test]
fn parts_of_a_number() {
    let read = Decimal::nearest(-398_600.441_8).unwrap();
    assert_eq!(read, Decimal { negative: true, whole: 398_600, billionths: 441_800_000 });
}

/// Every digit of 2^-1074 is there. Its decimals end with 625 at places 1072 to 1074, the first three of the
/// last nine.
#[test]
fn the_digits_are_all_of_them() {
    assert_eq!(digits(1.0), [0, 1, 0, 0, 0, 0, 0, 0]);
    assert_eq!(digits(0.75)[1..4], [0, 750_000_000, 0]);
    let least = digits(f64::from_bits(1));
    assert_eq!(least.len(), 2 + 120);
    assert!(least[..37].iter().all(|&digit| digit == 0));
    assert_eq!(least[121], 625_000_000);
}

/// The standard library rounds the exact value too, with ties to even. It keeps the minus sign of what rounds
/// to zero.
#[test]
fn the_standard_library_agrees() {
    let mut r = Random::new(31);
    for i in 0..30_000u32 {
        let exponent = u64::from(i % 1047) << 52;
        let size = f64::from_bits(exponent | r.bits(52));
        let tie = (2 * r.bits(32) + 1) as f64 / 1024.0;
        for x in [size, tie, f64::next_up(tie), f64::next_down(tie)] {
            if let Some(number) = Decimal::nearest(x) {
                assert_eq!(number.to_string(), format!("{x:.9}"), "{x:e}");
                assert_eq!(Decimal::nearest(-x).unwrap().negative, number.whole + number.billionths > 0);
            }
        }
    }
}
