//! `solve`: writes the records of questions, on every core and in the questions' order.

mod pool;
mod progress;

use crate::expected;
use crate::options::Options;
use crate::stop::{tell, Stop};
use crate::streams::Output;
use crate::wire::SLOT;
use crate::words::counted;
use progress::Progress;

const HINT: &str = "name a file with -o, or pass them on to 'lambert-cli show'";

/// Runs the command. Returns status 1 if `--strict` is given and a question was refused.
pub fn run(words: &[String]) -> Result<u8, Stop> {
    let options = Options::read(words, &["--strict"], &["--jobs", "-o"])?;
    let jobs = jobs(options.value("--jobs"))?;
    let mut input = expected::questions(options.file()?)?;
    input.not_empty_for(options.value("-o"))?;
    let mut output = Output::open_bytes(options.value("-o"), &[input.id()], HINT)?;
    let whole = input.file.as_ref().filter(|file| file.is_file());
    let mut progress = Progress::new(whole.map(|file| file.len().div_ceil(SLOT as u64)));
    let name = input.name;
    let (mut questions, mut refused, mut damaged, mut cut) = (0, 0, 0, None);
    let mut replies = pool::start(input.bytes, jobs);
    while let Some(reply) = replies.next(|| output.flush())? {
        let reply = match reply {
            Ok(reply) => reply,
            Err(e) => {
                // The records before a failed read are complete, so they are written to standard output. A file is not written.
                output.flush()?;
                return Err(Stop::reading(&name, &e));
            }
        };
        output.put(&reply.records)?;
        questions += reply.questions;
        refused += reply.refused;
        damaged += reply.damaged;
        cut = reply.cut;
        progress.show(questions);
    }
    output.finish()?;
    drop(progress);
    if damaged > 0 {
        tell(&format!("{name}: {}", not_questions(damaged, questions, cut)));
    }
    if options.has("--strict") && refused > 0 {
        tell(&format!("{refused} of {questions} questions refused"));
        return Ok(1);
    }
    Ok(0)
}

/// Returns the words for slots that are not questions.
fn not_questions(damaged: u64, slots: u64, cut: Option<usize>) -> String {
    let are =
        if damaged == 1 { "is not a question, and its record" } else { "are not questions, and each record" };
    let last =
        cut.map(|size| format!("; the last slot is cut short: {size} of {SLOT} bytes")).unwrap_or_default();
    format!("{damaged} of {} {are} is refusal 1, which names no job{last}", counted(slots, "slot"))
}

fn jobs(given: Option<&str>) -> Result<usize, Stop> {
    match given.map(str::parse) {
        None => Ok(std::thread::available_parallelism().map_or(1, |n| n.get())),
        Some(Ok(n @ 1..=1024)) => Ok(n),
        Some(_) => Stop::said("--jobs takes a whole number from 1 to 1024"),
    }
}
