//! A single question from options.

use super::{say_mu, DEFAULT_REVISION, DEFAULT_REVOLUTIONS};
use crate::fields;
use crate::mistakes::Mistakes;
use crate::options::Options;
use crate::stop::Stop;
use crate::wire::Question;

/// The options of a single question. The last two are optional.
pub const FIELDS: [&str; 8] =
    ["--r1", "--r2", "--mu", "--time", "--way", "--job", "--revolutions", "--revision"];
const NEEDED: usize = 6;

pub fn question(options: &Options) -> Result<Question, Stop> {
    let mut mistakes = Mistakes::default();
    mistakes.need(options, &FIELDS[..NEEDED]);
    mistakes.stop()?;
    let value = |name: &str, usual: &str| options.value(name).unwrap_or(usual).to_string();
    let question = Question {
        job: mistakes.take("--job", fields::job(&value("--job", ""))),
        revision: mistakes.take("--revision", fields::revision(&value("--revision", DEFAULT_REVISION))),
        revolutions: mistakes
            .take("--revolutions", fields::revolutions(&value("--revolutions", DEFAULT_REVOLUTIONS))),
        long_way: mistakes.take("--way", fields::way(&value("--way", ""))),
        ..geometry(options, &mut mistakes)
    };
    mistakes.stop()?;
    say_mu(value("--mu", "").trim(), question.mu);
    Ok(question)
}

/// Returns a question with the positions, mu and the time of the options, as job 1, revision 1, short way.
pub fn geometry(options: &Options, mistakes: &mut Mistakes) -> Question {
    let value = |name: &str| options.value(name).unwrap_or_default();
    Question {
        job: 1,
        revision: 1,
        revolutions: 0,
        long_way: false,
        r1: mistakes.take("--r1", fields::vector(value("--r1"))),
        r2: mistakes.take("--r2", fields::vector(value("--r2"))),
        mu: mistakes.take("--mu", fields::mu(value("--mu"))),
        time: mistakes.take("--time", fields::time(value("--time"))),
    }
}
