//! The first void station of refusal 12: in words, as JSON and as fields of a CSV line.

use crate::json;
use crate::wire::VoidStation;
use crate::words::number;

/// Returns the station and the reason. If one of them is not of the rules, the words say so.
pub fn words(void: VoidStation) -> String {
    let VoidStation { j, reason } = void;
    let strange = if void.is_station() { "" } else { " (not a station: j is -4095 to 16384)" };
    format!("j = {j}, x = {}{strange}, reason {}: {}", number(void.x()), reason.0, reason.words())
}

/// The name of the object in JSON.
pub const NAME: &str = "void_station";

pub fn object(void: VoidStation) -> String {
    json::object([
        ("j", void.j.to_string()),
        ("x", json::number(void.x())),
        ("reason", void.reason.0.to_string()),
        ("why", json::string(void.reason.words())),
    ])
}

/// The columns in CSV.
pub const COLUMNS: &str = "void_j,void_x,void_reason";

/// Returns the fields of these columns. They are empty if there is no void station.
pub fn fields(void: Option<VoidStation>) -> [String; 3] {
    match void {
        None => Default::default(),
        Some(void) => [void.j.to_string(), format!("{:?}", void.x()), void.reason.0.to_string()],
    }
}

#[cfg(test)]
mod tests {
    use super::*;
    use crate::reason::Reason;

    fn void(j: i32, reason: u16) -> VoidStation {
        VoidStation { j, reason: Reason(reason) }
    }

    #[test]
    fn what_is_not_of_the_rules_is_said_to_be_so() {
        let first = "j = -4095, x = -0.999755859375, reason 3: a divisor is zero";
        assert_eq!(words(void(-4095, 3)), first);
        assert_eq!(words(void(16_384, 4)), "j = 16384, x = 4, reason 4: the result is not finite");
        let strange = "not a station: j is -4095 to 16384";
        let odd = "not a reason of the rules, which have 1 to 4";
        assert_eq!(words(void(1, 0)), format!("j = 1, x = 0.000244140625, reason 0: {odd}"));
        for (j, x) in [(i32::MIN, "-524288"), (i32::MAX, "524287.9997558594"), (16_385, "4.000244140625")] {
            assert_eq!(words(void(j, 65_535)), format!("j = {j}, x = {x} ({strange}), reason 65535: {odd}"));
        }
    }

    #[test]
    fn programs_get_the_numbers() {
        let expected = r#"{"j":-4095,"x":-0.999755859375,"reason":4,"why":"the result is not finite"}"#;
        assert_eq!(object(void(-4095, 4)), expected);
        assert_eq!(fields(Some(void(-2048, 9))), ["-2048", "-0.5", "9"]);
        assert_eq!(fields(None), ["", "", ""]);
        assert_eq!(COLUMNS.split(',').count(), fields(None).len());
    }
}
