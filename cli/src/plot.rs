//! `plot`: draws one question as an SVG. The proved library computes the time at each place of the curve.

mod axes;
mod choice;
mod curve;
mod graph;
mod measure;
mod page;
mod room;
mod sheet;
mod svg;
mod ticks;
mod time_scale;
mod told;
mod trace;
mod transfer;
mod voids;

use crate::expected;
use crate::fields::radius;
use crate::options::Options;
use crate::stop::Stop;
use crate::streams::write_text;
use crate::wire::Record;
use choice::Choice;
use curve::Curve;

/// Runs the command. It opens the output only when the picture is ready, so that a failure leaves no empty file.
pub fn run(words: &[String]) -> Result<u8, Stop> {
    let options = Options::read(words, &[], &["--job", "--slot", "--radius", "-o"])?;
    let choice = Choice::read(&options)?;
    let radius = options.value("--radius").map(radius).transpose()?;
    let mut input = expected::questions(options.file()?)?;
    let question = choice.question(&mut input)?;
    let slot = question.bytes();
    let record = Record::of_question(&slot)?;
    let curve = Curve::of(&slot, &record.outcome);
    let picture = page::page(&question, &record.outcome, curve.as_ref(), radius);
    write_text(options.value("-o"), &[input.id()], &picture)?;
    Ok(0)
}
