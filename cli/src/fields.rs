//! Reads the fields of a question, and of a request for an orbit message, from text. These functions refuse
//! only what a field cannot hold. The proved libraries check the rest.

use crate::stop::Stop;
use crate::words::{quoted, shortened};

mod bodies;

pub use bodies::{body_of, BODIES};

const UNITS: [(&str, f64); 4] = [("s", 1.0), ("min", 60.0), ("h", 3_600.0), ("d", 86_400.0)];

/// Reads a decimal number within the range of an f64.
pub fn real(text: &str) -> Result<f64, String> {
    let text = text.trim();
    if text.is_empty() {
        return Err("is empty".into());
    }
    let numeral = text.starts_with(|c: char| c.is_ascii_digit() || "+-.".contains(c))
        && text.chars().all(|c| c.is_ascii_digit() || "+-.eE".contains(c));
    match text.parse::<f64>() {
        Ok(value) if numeral && value.is_infinite() => {
            Err(format!("{} is too large for an f64", quoted(text)))
        }
        Ok(value) if numeral && value == 0.0 && has_digit(text) => {
            Err(format!("{} is too small for an f64", quoted(text)))
        }
        Ok(value) if numeral => Ok(value),
        _ => Err(format!("{} is not a number", quoted(text))),
    }
}

/// Reports whether a digit before the exponent is not 0.
fn has_digit(text: &str) -> bool {
    text.split(['e', 'E']).next().is_some_and(|digits| digits.contains(|c| ('1'..='9').contains(&c)))
}

/// Reads a whole number from 0 to `max`.
pub fn whole(text: &str, max: u32) -> Result<u32, String> {
    let text = text.trim();
    let digits = text.strip_prefix('-').unwrap_or(text);
    match text.parse::<u32>() {
        _ if text.is_empty() => Err("is empty".into()),
        _ if digits.is_empty() || !digits.chars().all(|c| c.is_ascii_digit()) => {
            Err(format!("{} is not a whole number", quoted(text)))
        }
        _ if digits != text => Err(format!("{} is negative", shortened(text))),
        Ok(value) if value <= max => Ok(value),
        _ => Err(format!("{} is above {max}", shortened(text))),
    }
}

pub fn job(text: &str) -> Result<u32, String> {
    match whole(text, u32::MAX)? {
        0 => Err("is 0, but job numbers start at 1".into()),
        job => Ok(job),
    }
}

pub fn revision(text: &str) -> Result<u32, String> {
    whole(text, u32::MAX)
}

/// Reads the number of an entry of an answer.
pub fn entry(text: &str) -> Result<u32, String> {
    whole(text, u32::MAX)
}

pub fn revolutions(text: &str) -> Result<u16, String> {
    whole(text, u16::MAX.into()).map(|value| value as u16)
}

/// Reads the way: true for long, false for short.
pub fn way(text: &str) -> Result<bool, String> {
    match text.trim() {
        "short" => Ok(false),
        "long" => Ok(true),
        "" => Err("is empty".into()),
        other => Err(format!("{} is neither short nor long", quoted(other))),
    }
}

/// Reads a gravitational parameter: a number, or the name of a body.
pub fn mu(text: &str) -> Result<f64, String> {
    match BODIES.iter().find(|body| body.name == text.trim()) {
        Some(body) => Ok(body.mu),
        None if text.trim().starts_with(char::is_alphabetic) => {
            Err(format!("{} is not a number and not one of earth, moon, mars, sun", quoted(text.trim())))
        }
        None => real(text),
    }
}

/// Reads a time and returns it in seconds: the number as an f64, times its unit.
pub fn time(text: &str) -> Result<f64, String> {
    let text = text.trim();
    let number = text.trim_end_matches(|c: char| c.is_alphabetic()).trim_end();
    let unit = text[number.len()..].trim_start();
    let value = real(if number.is_empty() { text } else { number })?;
    match UNITS.iter().find(|(name, _)| *name == unit || (unit.is_empty() && *name == "s")) {
        None => Err(format!("{} is not a unit of time: s, min, h or d", quoted(unit))),
        Some((_, seconds)) if (value * seconds).is_infinite() => {
            Err(format!("{} is too large for an f64", quoted(text)))
        }
        Some((_, seconds)) => Ok(value * seconds),
    }
}

/// Reads the option `--radius`, the radius of a body in km.
pub fn radius(text: &str) -> Result<f64, Stop> {
    match real(text) {
        Ok(radius) if radius > 0.0 => Ok(radius),
        Ok(_) => Stop::said(format!("--radius: {} is not above 0", shortened(text.trim()))),
        Err(words) => Stop::said(format!("--radius: {words}")),
    }
}

/// Reads three numbers separated by commas.
pub fn vector(text: &str) -> Result<[f64; 3], String> {
    let parts: Vec<&str> = text.split(',').collect();
    match parts[..] {
        [x, y, z] => Ok([real(x)?, real(y)?, real(z)?]),
        _ => {
            let s = if parts.len() == 1 { "" } else { "s" };
            Err(format!("has {} component{s}, not 3: write x,y,z with commas and no blanks", parts.len()))
        }
    }
}

#[cfg(test)]
mod tests;
