//! The terminal: how wide it is, and whether colour suits it. The call that asks for the width is the only unsafe code here.

use std::io::IsTerminal;

/// Returns the number of columns of the output: the value of `COLUMNS` or, on a terminal, the terminal's own. If
/// neither is known, there is no limit.
pub fn columns() -> Option<usize> {
    given(std::env::var("COLUMNS").ok()).or_else(|| std::io::stdout().is_terminal().then(own).flatten())
}

fn given(columns: Option<String>) -> Option<usize> {
    columns?.trim().parse().ok().filter(|columns| *columns > 0)
}

/// The size of a window as the system call `ioctl` gives it.
#[repr(C)]
#[derive(Default)]
struct Window {
    rows: u16,
    columns: u16,
    pixels: [u16; 2],
}

extern "C" {
    fn ioctl(descriptor: i32, request: std::ffi::c_ulong, ...) -> i32;
}

const STANDARD_OUTPUT: i32 = 1;
const WINDOW_SIZE: std::ffi::c_ulong = 0x5413;

/// Asks the terminal of standard output for its width.
fn own() -> Option<usize> {
    let mut window = Window::default();
    // SAFETY: for this request the system writes a `Window` of four u16 to the pointer, and keeps nothing.
    let told = unsafe { ioctl(STANDARD_OUTPUT, WINDOW_SIZE, &mut window as *mut Window) };
    (told == 0 && window.columns > 0).then_some(window.columns.into())
}

/// How a part of the output is meant, for its colour.
#[derive(Clone, Copy)]
pub enum Mark {
    Refusal,
    Warning,
}

/// Whether standard output is coloured: it is a terminal, `NO_COLOR` is not set, and the terminal is not a dumb one.
#[derive(Clone, Copy)]
pub struct Colour(pub bool);

impl Colour {
    pub fn of_output(to_file: bool) -> Colour {
        let set = |name: &str| std::env::var_os(name).is_some_and(|value| !value.is_empty());
        let dumb = std::env::var("TERM").is_ok_and(|term| term == "dumb");
        Colour(!to_file && std::io::stdout().is_terminal() && !set("NO_COLOR") && !dumb)
    }

    /// Returns a text in the colour of its mark, line by line.
    pub fn paint(self, mark: Mark, text: &str) -> String {
        let code = match mark {
            Mark::Refusal => "33",
            Mark::Warning => "1;31",
        };
        match self {
            Colour(false) => text.into(),
            Colour(true) => {
                let lines: Vec<String> = text.split('\n').map(|line| in_colour(line, code)).collect();
                lines.join("\n")
            }
        }
    }
}

fn in_colour(line: &str, code: &str) -> String {
    if line.is_empty() {
        String::new()
    } else {
        format!("\x1b[{code}m{line}\x1b[0m")
    }
}

#[cfg(test)]
mod tests {
    use super::*;

    #[test]
    fn only_whole_widths_count() {
        let width = |text: &str| given(Some(text.into()));
        assert_eq!((width("80"), width(" 132 ")), (Some(80), Some(132)));
        assert_eq!([width("0"), width("-1"), width("wide"), width(""), given(None)], [None; 5]);
    }

    #[test]
    fn every_line_has_its_colour() {
        assert_eq!(Colour(false).paint(Mark::Warning, "a\nb"), "a\nb");
        assert_eq!(Colour(true).paint(Mark::Refusal, "a\n"), "\x1b[33ma\x1b[0m\n");
    }
}
