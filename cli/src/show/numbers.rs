//! Numbers of the table, rounded to the digits that people need. JSON and CSV have all digits.

/// Returns a distance in km.
pub fn distance(km: f64) -> String {
    match km.abs() {
        size if size >= 1e10 || (size > 0.0 && size < 0.1) => format!("{km:.4e}"),
        size if size >= 1e6 => format!("{km:.0}"),
        _ => format!("{km:.1}"),
    }
}

/// Returns a speed in km/s.
pub fn speed(km_s: f64) -> String {
    match km_s.abs() {
        size if size >= 1e4 || (size > 0.0 && size < 0.01) => format!("{km_s:.2e}"),
        _ => format!("{km_s:.4}"),
    }
}

/// Returns a miss in m, or a question mark if it is not known.
pub fn miss(m: Option<f64>) -> String {
    match m {
        None => "?".into(),
        Some(m) if m >= 1e6 => format!("{m:.1e}"),
        Some(m) if m >= 10.0 => format!("{m:.0}"),
        Some(m) => format!("{m:.3}"),
    }
}

#[cfg(test)]
mod tests {
    use super::*;

    #[test]
    fn digits_suit_the_size() {
        let found = [6778.137, 2.279e8, 1.5e11, 0.01].map(distance);
        assert_eq!(found, ["6778.1", "227900000", "1.5000e11", "1.0000e-2"]);
        assert_eq!([10.04461, 0.5, 123_456.0, 1e-5].map(speed), ["10.0446", "0.5000", "1.23e5", "1.00e-5"]);
        let found = [Some(0.01234), Some(160.4), Some(2e6), None].map(miss);
        assert_eq!(found, ["0.012", "160", "2.0e6", "?"]);
    }
}
