//! JSON texts: numbers, strings, arrays and objects. A float is written with enough digits to read back as the same bits.

/// Returns a number. JSON has no infinities and no NaN, so they are written as strings.
pub fn number(value: f64) -> String {
    if value.is_finite() {
        format!("{value:?}")
    } else {
        format!("\"{value}\"")
    }
}

/// Returns a number, or null if there is none.
pub fn number_or_null(value: Option<f64>) -> String {
    value.map_or("null".into(), number)
}

/// Returns a string. Its text can have any character.
pub fn string(text: &str) -> String {
    let escaped = text.chars().map(|c| match c {
        '"' | '\\' => format!("\\{c}"),
        c if c.is_control() => format!("\\u{:04x}", u32::from(c)),
        c => c.into(),
    });
    format!("\"{}\"", escaped.collect::<String>())
}

pub fn array(values: impl IntoIterator<Item = String>) -> String {
    format!("[{}]", values.into_iter().collect::<Vec<String>>().join(","))
}

/// Returns an object. The names are this program's own and need no escapes.
pub fn object<'a>(fields: impl IntoIterator<Item = (&'a str, String)>) -> String {
    let fields: Vec<String> = fields.into_iter().map(|(name, value)| format!("\"{name}\":{value}")).collect();
    format!("{{{}}}", fields.join(","))
}

#[cfg(test)]
mod tests {
    use super::*;

    #[test]
    fn numbers_read_back() {
        for value in [0.1, -0.0, 1e300, 5e-324, 398_600.441_8, f64::MAX, 1.0] {
            assert_eq!(number(value).parse::<f64>().map(f64::to_bits), Ok(value.to_bits()));
        }
        assert_eq!([f64::NAN, f64::INFINITY].map(number), ["\"NaN\"", "\"inf\""]);
        assert_eq!((number_or_null(None), number_or_null(Some(2.0))), ("null".into(), "2.0".into()));
    }

    #[test]
    fn strings_are_escaped() {
        assert_eq!(string("a\"b\\c\n\u{7f}é"), "\"a\\\"b\\\\c\\u000a\\u007fé\"");
    }

    #[test]
    fn objects_and_arrays_nest() {
        let list = array([1.0, 2.5].map(number));
        assert_eq!(object([("a", list), ("b", string(""))]), "{\"a\":[1.0,2.5],\"b\":\"\"}");
        assert_eq!((array([]), object([])), ("[]".into(), "{}".into()));
    }
}
