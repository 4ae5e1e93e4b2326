//! Reads an orbit message back, and prints its six numbers exactly: no number goes through an f64.

use crate::options::Options;
use crate::proved::{orbit_state, LONGEST_ORBIT_MESSAGE};
use crate::stop::Stop;
use crate::streams::{write_text, Input};
use std::io::Read;

/// The keys of the numbers, with their units.
const NUMBERS: [(&str, &str); 6] =
    [("X", "km"), ("Y", "km"), ("Z", "km"), ("X_DOT", "km/s"), ("Y_DOT", "km/s"), ("Z_DOT", "km/s")];

/// The width of the longest number: a sign, seven digits, the point and nine decimals.
const WIDTH: usize = 18;

/// A number of an orbit message: its sign, its whole part and its billionths.
struct Decimal {
    negative: bool,
    whole: u64,
    billionths: u64,
}

impl Decimal {
    fn text(&self) -> String {
        let sign = if self.negative { "-" } else { "" };
        format!("{sign}{}.{:09}", self.whole, self.billionths)
    }
}

pub fn run(options: &Options) -> Result<u8, Stop> {
    let state = state(&mut Input::open(options.file()?)?)?;
    write_text(None, &[], &if options.has("--json") { json(&state) } else { table(&state) })?;
    Ok(0)
}

/// Reads the numbers of an orbit message. Reads at most one byte more than the longest orbit message has. A
/// longer input is refused by its length.
fn state(input: &mut Input) -> Result<[Decimal; 6], Stop> {
    let Input { name, bytes, .. } = input;
    let mut message = Vec::new();
    let most = LONGEST_ORBIT_MESSAGE as u64 + 1;
    bytes.take(most).read_to_end(&mut message).map_err(|e| Stop::reading(name, &e))?;
    match orbit_state(&message) {
        Ok(numbers) => {
            Ok(numbers.map(|[sign, whole, billionths]| Decimal { negative: sign == 1, whole, billionths }))
        }
        Err(number) => Stop::said(format!(
            "{name}: B{number}, not an orbit message in exactly the form that lambert-cli writes, so no \
             number of it is shown (this does not say that it is wrong: an orbit message of another \
             program may still be good)"
        )),
    }
}

fn table(state: &[Decimal; 6]) -> String {
    let lines = NUMBERS.iter().zip(state);
    lines.map(|((name, unit), number)| format!("{name:<5}  {:>WIDTH$} {unit}\n", number.text())).collect()
}

/// Returns the numbers as a JSON object. Its texts are strings, since a reader of JSON may take a number for
/// an f64, which does not hold sixteen digits. A whole part and billionths are below 2^53, so they are
/// numbers.
fn json(state: &[Decimal; 6]) -> String {
    let fields = NUMBERS.iter().zip(state).map(|((name, unit), number)| {
        let Decimal { negative, whole, billionths } = number;
        format!(
            "\"{name}\":{{\"text\":\"{}\",\"unit\":\"{unit}\",\"negative\":{negative},\"whole\":{whole},\
             \"billionths\":{billionths}}}",
            number.text()
        )
    });
    format!("{{{}}}\n", fields.collect::<Vec<_>>().join(","))
}
