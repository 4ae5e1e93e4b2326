//! The command for people around the proved solver, the proved board and the proved orbit messages. It does
//! not compute transfers, change boards or write orbit messages itself: the functions of `proved` do that. What it
//! computes for display is tested, not proved.
#![deny(unsafe_code)]

mod answer;
mod arc;
mod ask;
mod belongs;
mod board;
mod check;
mod csv;
mod expected;
mod fields;
mod help;
mod json;
mod mistakes;
mod opm;
mod options;
mod orbit;
mod plot;
mod propagation;
#[allow(unsafe_code)]
mod proved;
mod reason;
mod refusal;
mod show;
mod similar;
mod solve;
#[allow(unsafe_code)]
mod standard;
mod stop;
mod streams;
mod surface;
#[allow(unsafe_code)]
mod terminal;
mod vectors;
mod version;
mod wire;
mod words;

use std::process::ExitCode;
use stop::Stop;

/// The name of a command, its help text and the function that runs it.
type Command = (&'static str, &'static str, fn(&[String]) -> Result<u8, Stop>);

const COMMANDS: [Command; 8] = [
    ("answer", help::ANSWER, answer::run),
    ("ask", help::ASK, ask::run),
    ("solve", help::SOLVE, solve::run),
    ("show", help::SHOW, show::run),
    ("plot", help::PLOT, plot::run),
    ("board", help::BOARD, board::run),
    ("check", help::CHECK, check::run),
    ("opm", help::OPM, opm::run),
];

fn main() -> ExitCode {
    let told = words().and_then(|words| run(&words));
    match told {
        Ok(status) => ExitCode::from(status),
        Err(Stop::PipeClosed) => ExitCode::SUCCESS,
        Err(Stop::Said(words)) => {
            stop::tell(&words);
            ExitCode::from(2)
        }
    }
}

fn words() -> Result<Vec<String>, Stop> {
    let words = std::env::args_os().skip(1).map(|word| word.into_string());
    words.collect::<Result<_, _>>().or_else(|word| Stop::said(format!("{word:?} is not UTF-8 text")))
}

fn run(words: &[String]) -> Result<u8, Stop> {
    let Some((first, rest)) = words.split_first() else {
        return Stop::said("no command is given; 'lambert-cli --help' lists the commands");
    };
    if first == "--help" || first == "-h" || (first == "help" && rest.is_empty()) {
        return say(help::WHOLE);
    }
    if first == "--version" || first == "-V" {
        return say(&version::text());
    }
    let Some((_, help, command)) = COMMANDS.iter().find(|(name, ..)| name == first) else {
        let known = COMMANDS.iter().map(|(name, ..)| *name);
        let meant = similar::similar(first, known).map(|name| format!("did you mean {name}? "));
        let first = words::shortened(first);
        let meant = meant.unwrap_or_default();
        return Stop::said(format!(
            "unknown command {first}; {meant}'lambert-cli --help' lists the commands"
        ));
    };
    if rest.iter().take_while(|word| *word != "--").any(|word| word == "--help" || word == "-h") {
        return say(help);
    }
    command(rest)
}

fn say(text: &str) -> Result<u8, Stop> {
    streams::write_text(None, &[], text)?;
    Ok(0)
}
