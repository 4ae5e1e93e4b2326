//! `board`: posts records to a board, which holds the outcome of each job's highest revision whatever the order of the records.

mod comma;
mod conflict;
mod content;
mod difference;
mod foot;
mod json;
mod names;
mod origins;
mod posting;
mod sources;
mod table;
mod tally;

use crate::options::Options;
use crate::proved::post;
use crate::stop::{tell, Stop};
use crate::streams::{FileId, Input, Output};
use crate::terminal::{columns, Colour};
use crate::wire::slots::{filled, Held, BOARD};
use crate::words::{counted, printable};
use posting::Posting;
use std::io::Read;
use table::Look;

const FLAGS: [&str; 5] = ["--strict", "--bytes", "--json", "--csv", "--explain"];

/// Runs the command and returns its status: 2 if a record found no place on the board or an input could not be read to its end, 1
/// if `--strict` is given and the board has a conflict. It opens the output after it has read all inputs.
pub fn run(words: &[String]) -> Result<u8, Stop> {
    let options = Options::read(words, &FLAGS, &["--board", "-o"])?;
    options.apart("--csv", &["--json", "--bytes", "--explain"])?;
    options.apart("--bytes", &["--json", "--explain"])?;
    options.apart("--json", &["--explain"])?;
    let stored_name = options.value("--board");
    if stored_name == Some("-") && (options.files.is_empty() || options.files.iter().any(|name| name == "-"))
    {
        return Stop::said("records and the board cannot both come from standard input");
    }
    let sources = sources::list(&options.files)?;
    let mut stored = stored_name.map(|name| Input::open(Some(name))).transpose()?;
    let board = stored.as_mut().map_or(Ok(vec![0; BOARD]), read)?;
    let mut ids = vec![stored.as_ref().and_then(Input::id)];
    let mut posting = Posting::on(board, stored.map(|input| input.name).unwrap_or_default());
    for source in sources {
        let (name, id) = (source.name.clone(), source.id);
        let input = source.open();
        ids.extend([id, input.as_ref().ok().and_then(Input::id)]);
        posting.post_all(name, input);
    }
    match write(&posting, &options, &ids) {
        // A closed pipe does not change the status of the board.
        Ok(()) | Err(Stop::PipeClosed) => Ok(status(&posting, options.has("--strict"))),
        Err(stop) => Err(stop),
    }
}

/// Reads a stored board. To check that it is one, this function posts an empty record: that changes no board, and the number of the
/// refusal is B0 exactly if the bytes are not a board.
fn read(input: &mut Input) -> Result<Vec<u8>, Stop> {
    let Input { name, bytes, .. } = input;
    let mut board = Vec::new();
    bytes.take(BOARD as u64 + 1).read_to_end(&mut board).map_err(|e| Stop::reading(name, &e))?;
    if post(&mut board, &[]) != posting::NO_BOARD {
        return Ok(board);
    }
    let why = match board.len() {
        BOARD => "its slots are not those of a board".into(),
        size if size < BOARD => format!("it has {size} bytes, and a board has {BOARD}"),
        _ => format!("it has more than the {BOARD} bytes of a board"),
    };
    Stop::said(format!("{name}: B0, not a board: {why}"))
}

/// Writes the board in the form that is asked for. If it is incomplete, a file is not written: a complete board under this name is not
/// replaced, and the bytes of a board cannot say that it is incomplete.
fn write(posting: &Posting, options: &Options, ids: &[Option<FileId>]) -> Result<(), Stop> {
    let name = options.value("-o").filter(|name| *name != "-");
    let incomplete = posting.tally.incomplete();
    if let (Some(name), Some(words)) = (name, &incomplete) {
        tell(words);
        tell(&format!("{} is not written, because the board is incomplete", printable(name)));
        return Ok(());
    }
    if let (Some(name), true) = (name, posting.tally.is_empty()) {
        return Stop::said(format!("no record came, so {} is not written", printable(name)));
    }
    let bytes = form(posting, options, name.is_some());
    let mut output = match options.has("--bytes") {
        true => Output::open_bytes(name, ids, "-o OUT writes the board to a file")?,
        false => Output::open(name, ids)?,
    };
    if ["--bytes", "--json", "--csv"].iter().any(|form| options.has(form)) {
        incomplete.into_iter().for_each(|words| tell(&words));
    }
    output.put(&bytes)?;
    output.finish()
}

/// Returns the bytes of the board in the form that is asked for.
fn form(posting: &Posting, options: &Options, to_file: bool) -> Vec<u8> {
    if options.has("--bytes") {
        posting.board.clone()
    } else if options.has("--json") {
        json::lines(posting).into_bytes()
    } else if options.has("--csv") {
        comma::lines(posting).into_bytes()
    } else {
        let explain = options.has("--explain");
        let look = Look { columns: columns(), colour: Colour::of_output(to_file), explain };
        table::table(posting, &look).into_bytes()
    }
}

fn status(posting: &Posting, strict: bool) -> u8 {
    let conflicts = filled(&posting.board).filter(|slot| slot.held == Held::Conflict).count();
    let failed = strict && conflicts > 0;
    if failed {
        tell(&format!("{} on the board", counted(conflicts as u64, "conflict")));
    }
    match posting.tally.missing() {
        Some(_) => 2,
        None => failed.into(),
    }
}
