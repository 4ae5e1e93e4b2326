//! The marks of the axes, with their labels.

/// A mark: the common logarithm of its time, and its label if it has one.
pub type Tick = (f64, Option<String>);

/// Returns the marks of a logarithmic axis: only powers of ten if the axis spans many decades, and marks between them if it spans few.
pub fn logarithmic((low, high): (f64, f64)) -> Vec<Tick> {
    let decades = high - low;
    let stride = (decades / 8.0).ceil().max(1.0) as i32;
    let labelled = |digit: i32, exponent: i32| match digit {
        1 => exponent % stride == 0,
        2 | 5 => decades < 2.2,
        3 | 7 => decades < 1.1,
        _ => false,
    };
    let mut ticks = Vec::new();
    for exponent in low.floor() as i32..=high.ceil() as i32 {
        for digit in 1..=(if decades < 4.5 { 9 } else { 1 }) {
            let level = f64::from(exponent) + f64::from(digit).log10();
            if (low..=high).contains(&level) {
                ticks.push((level, Some(label(digit, exponent)).filter(|_| labelled(digit, exponent))));
            }
        }
    }
    ticks
}

/// Returns the marks of the x axis, from -1 to its right end.
pub fn linear(right: f64) -> Vec<(f64, &'static str)> {
    if right > 1.0 {
        vec![(-1.0, "-1"), (0.0, "0"), (1.0, "1"), (2.0, "2"), (3.0, "3"), (4.0, "4")]
    } else {
        vec![(-1.0, "-1"), (-0.5, "-0.5"), (0.0, "0"), (0.5, "0.5"), (1.0, "1")]
    }
}

/// Returns the label of a digit times a power of ten, written out if that is short.
pub fn label(digit: i32, exponent: i32) -> String {
    if (0..=3).contains(&exponent) {
        return format!("{}", i64::from(digit) * 10i64.pow(exponent as u32));
    }
    if (-3..0).contains(&exponent) {
        return format!("0.{}{digit}", "0".repeat((-exponent - 1) as usize));
    }
    let times = if digit == 1 { String::new() } else { format!("{digit}·") };
    format!("{times}10{}", exponent.to_string().chars().map(raised).collect::<String>())
}

fn raised(c: char) -> char {
    match c {
        '-' => '⁻',
        '1' => '¹',
        '2' => '²',
        '3' => '³',
        c => c.to_digit(10).and_then(|digit| char::from_u32(0x2070 + digit)).unwrap_or(c),
    }
}

#[cfg(test)]
mod tests {
    use super::*;

    fn labels(levels: (f64, f64)) -> Vec<String> {
        logarithmic(levels).into_iter().filter_map(|(_, label)| label).collect()
    }

    #[test]
    fn labels_are_few_and_clean() {
        assert_eq!(labels((-1.2, 1.9)), ["0.1", "1", "10"]);
        assert_eq!(labels((0.9, 2.1)), ["10", "20", "50", "100"]);
        assert_eq!(labels((0.9, 1.8)), ["10", "20", "30", "50"]);
        assert_eq!(labels((-8.1, -7.5)), ["10⁻⁸", "2·10⁻⁸", "3·10⁻⁸"]);
        assert_eq!(labels((-19.5, 6.2)), ["10⁻¹⁶", "10⁻¹²", "10⁻⁸", "10⁻⁴", "1", "10⁴"]);
    }

    #[test]
    fn every_frame_has_labels() {
        for i in 0..100 {
            let low = f64::from(i) / 10.0 - 5.0;
            for span in [0.55, 1.0, 2.3, 5.0, 9.0, 30.0] {
                assert!((1..=9).contains(&labels((low, low + span)).len()), "{low}, {span}");
            }
        }
    }
}
