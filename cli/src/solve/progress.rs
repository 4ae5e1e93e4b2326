//! A line on standard error that shows the progress. It appears only on a terminal, and only after a second.

use std::io::{IsTerminal, Write};
use std::time::{Duration, Instant};

pub struct Progress {
    total: Option<u64>,
    began: Instant,
    shown: Option<Instant>,
    terminal: bool,
}

impl Progress {
    pub fn new(total: Option<u64>) -> Progress {
        let terminal = std::io::stderr().is_terminal();
        Progress { total, began: Instant::now(), shown: None, terminal }
    }

    pub fn show(&mut self, done: u64) {
        let last = self.shown.unwrap_or(self.began);
        if self.terminal && last.elapsed() > Duration::from_secs(1) {
            draw(&words(done, self.total, self.began.elapsed()));
            self.shown = Some(Instant::now());
        }
    }
}

/// Returns the line: how many questions are done, how many there are, the rate, and the time left at that rate.
fn words(done: u64, total: Option<u64>, took: Duration) -> String {
    let rate = done as f64 / took.as_secs_f64();
    let Some(total) = total else { return format!("{done} questions, {rate:.0} a second") };
    let left = match done {
        0 => "unknown".into(),
        _ => clock(total.saturating_sub(done) as f64 / rate),
    };
    format!("{done} of {total} questions, {rate:.0} a second, time left {left}")
}

/// Returns a time as minutes and seconds or, if it is long, as hours and minutes.
fn clock(seconds: f64) -> String {
    let seconds = seconds.round() as u64;
    match seconds / 3600 {
        0 => format!("{}:{:02} min", seconds / 60, seconds % 60),
        hours => format!("{hours}:{:02} h", seconds / 60 % 60),
    }
}

/// Clears the line when the work ends, before any other message is printed.
impl Drop for Progress {
    fn drop(&mut self) {
        if self.shown.is_some() {
            draw("");
        }
    }
}

/// Replaces the line with these words. If that fails, the work goes on.
fn draw(words: &str) {
    let _ = write!(std::io::stderr(), "\r\x1b[K{words}");
}

#[cfg(test)]
mod tests {
    use super::*;

    #[test]
    fn the_time_left_follows_from_the_rate() {
        let after = |done, total| words(done, total, Duration::from_secs(10));
        assert_eq!(after(500, Some(5000)), "500 of 5000 questions, 50 a second, time left 1:30 min");
        assert_eq!(after(20, Some(20_000)), "20 of 20000 questions, 2 a second, time left 2:46 h");
        assert_eq!(after(0, Some(3)), "0 of 3 questions, 0 a second, time left unknown");
        assert_eq!(after(7, None), "7 questions, 1 a second");
    }
}
