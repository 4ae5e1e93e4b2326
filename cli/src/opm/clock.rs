//! The current date and time in UTC, for an orbit message whose creation date is not given.

use crate::stop::Stop;
use std::time::{SystemTime, UNIX_EPOCH};

const DAY: u64 = 86_400;
/// The days from 1 March of year 0 to 1 January 1970, and the days of the 400 years after which the calendar
/// repeats.
const DAYS_TO_1970: u64 = 719_468;
const DAYS_OF_400_YEARS: u64 = 146_097;

/// Returns the current date and time as `YYYY-MM-DDThh:mm:ss`.
pub fn now() -> Result<String, Stop> {
    match SystemTime::now().duration_since(UNIX_EPOCH) {
        Ok(since) => Ok(date_and_time(since.as_secs())),
        Err(_) => Stop::said("--creation-date: is missing, and the clock of this machine is before 1970"),
    }
}

/// Returns the date and time of a number of seconds after the beginning of 1970.
fn date_and_time(seconds: u64) -> String {
    let ((year, month, day), rest) = (date(seconds / DAY), seconds % DAY);
    let (hours, minutes, seconds) = (rest / 3_600, rest / 60 % 60, rest % 60);
    format!("{year:04}-{month:02}-{day:02}T{hours:02}:{minutes:02}:{seconds:02}")
}

/// Returns the year, month and day of a number of days after 1 January 1970. It counts years from 1 March, so
/// that 29 February is the last day of its year.
fn date(days: u64) -> (u64, u64, u64) {
    let days = days + DAYS_TO_1970;
    let (cycle, day) = (days / DAYS_OF_400_YEARS, days % DAYS_OF_400_YEARS);
    let year = (day - day / 1_460 + day / 36_524 - day / 146_096) / 365;
    let day = day - (365 * year + year / 4 - year / 100);
    let month = (5 * day + 2) / 153;
    let day = day - (153 * month + 2) / 5 + 1;
    let (month, next) = if month < 10 { (month + 3, 0) } else { (month - 9, 1) };
    (400 * cycle + year + next, month, day)
}

#[cfg(test)]
mod tests {
    use super::*;

    #[test]
    fn known_times() {
        for (seconds, text) in [
            (0, "1970-01-01T00:00:00"),
            (951_782_399, "2000-02-28T23:59:59"),
            (951_782_400, "2000-02-29T00:00:00"),
            (951_868_800, "2000-03-01T00:00:00"),
            (1_234_567_890, "2009-02-13T23:31:30"),
            (4_107_542_400, "2100-03-01T00:00:00"),
            (4_107_542_399, "2100-02-28T23:59:59"),
        ] {
            assert_eq!(date_and_time(seconds), text);
        }
    }

    /// Counts the days of 800 years, month by month.
    #[test]
    fn every_day_has_its_date() {
        let mut days = 0;
        for year in 1970..2770 {
            let leap = year % 4 == 0 && (year % 100 != 0 || year % 400 == 0);
            let february = if leap { 29 } else { 28 };
            for (month, length) in (1..).zip([31, february, 31, 30, 31, 30, 31, 31, 30, 31, 30, 31]) {
                (1..=length).for_each(|day| assert_eq!(date(days + day - 1), (year, month, day)));
                days += length;
            }
        }
    }
}
