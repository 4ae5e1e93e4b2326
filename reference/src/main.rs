//! The commands of the independent second program. Each writes to standard output.

use reference::{
    boards, compare, entrance, flights, landing, links, places, precision, questions, record, root, solver,
    sweeps,
};
use std::io::{BufWriter, Read, Write};
use std::process::ExitCode;

const USAGE: &str =
    "usage: reference root | entrance questions | entrance verdicts | time places | time times |
       time precision | velocity flights | velocity velocities | sweep cases | sweep crossings |
       solve | solver questions | solver answers | solver random N SEED |
       solver missions N SEED | solver tally ANSWERS |
       solver differ QUESTIONS ANSWERS ANSWERS | solver landing QUESTIONS ANSWERS |
       board frames | board lines | board random N SEED | board told | board records | board board |
       board voids |
       link frames | link lines | link random N SEED | link told | link pieces | link records |
       link random_pieces N SEED | link answer
  root                 a line for each operand: its bits and the bits of its root, as hexadecimal digits
  entrance questions   a frame for each case: size and room, u16 little-endian, then the question's
                       bytes with zeros up to 120
  entrance verdicts    a line for each case: the number of its refusal, or 0 and 22 hexadecimal words
  time places          a frame for each place: lambda's bits u64, k i64, M u16, little-endian
  time times           a line for each place: the bits of its time as hexadecimal digits, or void and the
                       number of the reason
  time precision       the largest relative errors of the times over a grid of places
  velocity flights     a frame for each case: the bits of 17 floats u64, k i64, little-endian
  velocity velocities  a line for each case: the bits of v1 x y z and v2 x y z as hexadecimal digits
  sweep cases          a frame for each case: the bits of lambda and of the wanted time u64, M as u64,
                       little-endian
  sweep crossings      a line for each case: the number of brackets; timed, void or ninth; after void the
                       first void station's j as hexadecimal digits and the number of its reason; then
                       the lower and upper end of each bracket as hexadecimal digits and its halvings
  solve                an answer or a refusal for each slot of 82 bytes on standard input
  solver questions     the slots of the list, 82 bytes each, and a short one at the end
  solver answers       the records of these slots
  solver random        N slots of fresh questions of every sort
  solver missions      N slots of fresh questions as missions ask them
  solver tally         how many records a file holds: answers by entries, refusals by number
  solver differ        the first slot for which two files of records differ; fails if there is one
  solver landing       by how much the flights of a file of records miss the questions' positions
  board frames         lists of records to post to a board; commands u16, little-endian: up to 1024 the size
                       of a record that follows; FFFD and a size u32 that is lent as the board; FFFE, a
                       place u32 and a value u8 that is written there; FFFF the end of a list
  board lines          a line for each list: T or the digit of its refusal for each record, then the hash of
                       the board
  board random         the frames of N fresh lists, each in several orders
  board told           the lines of the frames on standard input
  board records        one stream of records, each by its length
  board board          the board's bytes after that stream
  board voids          well-formed records, half of them refusals with number 12
  link frames          streams cut into pieces for the reader of a link; commands u16, little-endian: up to 4096
                       the size of a piece that follows; FFFF the end of a stream, and the reader's reset
  link lines           a line for each stream as it is cut: for each call Q a question, N nothing, R number 1 or
                       B the need of a reset, the number of bytes it took and a question's bytes; then K, the
                       number of bytes kept and these, and ! if a reset is needed
  link random          the frames of N fresh streams, each cut in several ways
  link told            the lines of the frames on standard input
  link pieces          one stream in pieces, each a size u16, little-endian, and that many bytes
  link records         an answer or a refusal for each question of these pieces
  link random_pieces   N fresh questions in pieces, with an ending by the seed
  link answer          an answer or a refusal for each question of the pieces on standard input";

fn main() -> ExitCode {
    let words: Vec<String> = std::env::args().skip(1).collect();
    let mut out = BufWriter::new(std::io::stdout().lock());
    let done = match words.iter().map(String::as_str).collect::<Vec<_>>()[..] {
        ["root"] => write_roots(&mut out),
        ["entrance", "questions"] => write_questions(&mut out),
        ["entrance", "verdicts"] => write_verdicts(&mut out),
        ["time", "places"] => write_places(&mut out),
        ["time", "times"] => write_times(&mut out),
        ["time", "precision"] => out.write_all(precision::report().as_bytes()),
        ["velocity", "flights"] => write_flights(&mut out),
        ["velocity", "velocities"] => write_velocities(&mut out),
        ["sweep", "cases"] => write_sweeps(&mut out),
        ["sweep", "crossings"] => write_crossings(&mut out),
        ["solve"] => write_replies(&mut out),
        ["solver", "questions"] => out.write_all(&solver::questions()),
        ["solver", "answers"] => out.write_all(&solver::answers()),
        ["solver", "random", n, seed] => write_fresh(&mut out, solver::random, n, seed),
        ["solver", "missions", n, seed] => write_fresh(&mut out, solver::missions, n, seed),
        ["solver", "tally", answers] => write_tally(&mut out, answers),
        ["solver", "differ", asked, first, second] => write_difference(&mut out, asked, [first, second]),
        ["solver", "landing", asked, answers] => write_landing(&mut out, asked, answers),
        ["board", "frames"] => out.write_all(&boards::frames()),
        ["board", "lines"] => out.write_all(boards::lines().as_bytes()),
        ["board", "random", n, seed] => write_fresh(&mut out, boards::random, n, seed),
        ["board", "told"] => write_told(&mut out, boards::told),
        ["board", "records"] => out.write_all(&boards::records()),
        ["board", "board"] => out.write_all(&boards::board()),
        ["board", "voids"] => out.write_all(&boards::void_records()),
        ["link", "frames"] => out.write_all(&links::frames()),
        ["link", "lines"] => out.write_all(links::lines().as_bytes()),
        ["link", "random", n, seed] => write_fresh(&mut out, links::random, n, seed),
        ["link", "told"] => write_told(&mut out, links::told),
        ["link", "pieces"] => out.write_all(&links::pieces()),
        ["link", "records"] => out.write_all(&links::records()),
        ["link", "random_pieces", n, seed] => write_fresh(&mut out, links::random_pieces, n, seed),
        ["link", "answer"] => input().and_then(|pieces| out.write_all(&links::answer(&pieces))),
        _ => {
            eprintln!("{USAGE}");
            return ExitCode::from(2);
        }
    };
    match done.and_then(|()| out.flush()) {
        Ok(()) => ExitCode::SUCCESS,
        Err(e) => {
            eprintln!("reference: {e}");
            ExitCode::FAILURE
        }
    }
}

fn write_roots(out: &mut impl Write) -> std::io::Result<()> {
    for b in root::operands() {
        writeln!(out, "{:016x} {:016x}", b, root::root_bits(b))?;
    }
    Ok(())
}

fn write_questions(out: &mut impl Write) -> std::io::Result<()> {
    questions::cases().iter().try_for_each(|case| out.write_all(&case.frame()))
}

fn write_verdicts(out: &mut impl Write) -> std::io::Result<()> {
    for case in questions::cases() {
        writeln!(out, "{}", entrance::line(entrance::judge(&case.bytes, case.room.into())))?;
    }
    Ok(())
}

fn write_places(out: &mut impl Write) -> std::io::Result<()> {
    places::places().iter().try_for_each(|place| out.write_all(&place.frame()))
}

fn write_times(out: &mut impl Write) -> std::io::Result<()> {
    places::places().iter().try_for_each(|place| writeln!(out, "{}", place.line()))
}

fn write_flights(out: &mut impl Write) -> std::io::Result<()> {
    flights::flights().iter().try_for_each(|case| out.write_all(&case.frame()))
}

fn write_velocities(out: &mut impl Write) -> std::io::Result<()> {
    flights::flights().iter().try_for_each(|case| writeln!(out, "{}", case.line()))
}

fn write_sweeps(out: &mut impl Write) -> std::io::Result<()> {
    sweeps::cases().iter().try_for_each(|case| out.write_all(&case.frame()))
}

fn write_crossings(out: &mut impl Write) -> std::io::Result<()> {
    sweeps::cases().iter().try_for_each(|case| writeln!(out, "{}", case.line()))
}

fn write_replies(out: &mut impl Write) -> std::io::Result<()> {
    for reply in record::replies(&input()?) {
        out.write_all(&reply)?;
    }
    Ok(())
}

fn write_told(out: &mut impl Write, told: fn(&[u8]) -> Option<String>) -> std::io::Result<()> {
    let lines = told(&input()?).ok_or(std::io::Error::other("the frames are cut or unknown"))?;
    out.write_all(lines.as_bytes())
}

/// Reads all of standard input.
fn input() -> std::io::Result<Vec<u8>> {
    let mut bytes = Vec::new();
    std::io::stdin().read_to_end(&mut bytes)?;
    Ok(bytes)
}

fn write_fresh<S: AsRef<[u8]>, I: Iterator<Item = S>>(
    out: &mut impl Write,
    draw: fn(u64, u64) -> I,
    n: &str,
    seed: &str,
) -> std::io::Result<()> {
    let number = |word: &str| word.parse::<u64>().map_err(std::io::Error::other);
    draw(number(n)?, number(seed)?).try_for_each(|slot| out.write_all(slot.as_ref()))
}

fn write_tally(out: &mut impl Write, answers: &str) -> std::io::Result<()> {
    out.write_all(compare::tally(&std::fs::read(answers)?).as_bytes())
}

fn write_difference(out: &mut impl Write, asked: &str, files: [&str; 2]) -> std::io::Result<()> {
    let [first, second] = files.map(std::fs::read);
    match compare::difference(&std::fs::read(asked)?, [(files[0], &first?), (files[1], &second?)]) {
        None => writeln!(out, "every byte equal"),
        Some(told) => {
            out.write_all(told.as_bytes())?;
            out.flush()?;
            Err(std::io::Error::other("the records differ"))
        }
    }
}

fn write_landing(out: &mut impl Write, asked: &str, answers: &str) -> std::io::Result<()> {
    out.write_all(landing::report(&std::fs::read(asked)?, &std::fs::read(answers)?).as_bytes())
}
