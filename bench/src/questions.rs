//! Times whole questions: the proved program and the reference run on the same file, each as its own process.

use std::fs::{self, File};
use std::io::{self, Read, Write};
use std::path::{Path, PathBuf};
use std::process::{Command, Stdio};
use std::thread;
use std::time::Instant;

pub const ROUNDS: usize = 5;
pub const COUNT: usize = 400;
const SEED: &str = "14";

pub const PROVED: &str = "target/bin/lambert";
pub const REFERENCE: &str = "reference/target/release/reference";

/// A program and the arguments with which it answers questions.
pub type Program<'a> = (&'a str, &'a [&'a str]);
pub const TODAY: [Program<'static>; 2] = [(PROVED, &[]), (REFERENCE, &["solve"])];

/// The name that the reference has for each sort of questions, and a description.
pub const SORTS: [(&str, &str); 2] =
    [("random", "of every sort, some damaged"), ("missions", "as missions ask them")];

/// Runs both programs on each sort of questions. Fails if a program fails or if their records differ in a byte.
pub fn time() -> io::Result<()> {
    let folder = Path::new("target/questions");
    SORTS.into_iter().try_for_each(|sort| time_sort(sort, folder))
}

fn time_sort((sort, what): (&str, &str), folder: &Path) -> io::Result<()> {
    let asked = ask(sort, folder)?;
    let seconds = seconds(&asked, &TODAY, folder)?;
    if !same(folder, 0, 1)? {
        return Err(io::Error::other(format!("{sort}: the records differ")));
    }
    report(what, seconds, &peak_memory(fs::read(asked)?, fs::read(folder.join("0"))?.len())?);
    Ok(())
}

/// Writes the questions of a sort to a file in the folder. Returns its path.
pub fn ask(sort: &str, folder: &Path) -> io::Result<PathBuf> {
    fs::create_dir_all(folder)?;
    let asked = folder.join(sort);
    run(REFERENCE, &["solver", sort, &COUNT.to_string(), SEED], Path::new("/dev/null"), &asked)?;
    Ok(asked)
}

/// Returns the seconds that each program needs for the questions, in its fastest round. The programs run in turn in each round, and
/// program i writes to the file i.
pub fn seconds<const N: usize>(asked: &Path, programs: &[Program; N], folder: &Path) -> io::Result<[f64; N]> {
    let mut best = [f64::INFINITY; N];
    for _ in 0..ROUNDS {
        for (i, (program, words)) in programs.iter().enumerate() {
            best[i] = best[i].min(run(program, words, asked, &folder.join(i.to_string()))?);
        }
    }
    Ok(best)
}

/// Reports whether the programs i and j wrote the same bytes.
pub fn same(folder: &Path, i: usize, j: usize) -> io::Result<bool> {
    let written = |i: usize| fs::read(folder.join(i.to_string()));
    Ok(written(i)? == written(j)?)
}

/// Runs a program with one file as its input and another as its output. Returns the seconds that it took. Output on standard error
/// counts as a failure, since the proved program ends with the status 0 after a failure too.
fn run(program: &str, words: &[&str], from: &Path, to: &Path) -> io::Result<f64> {
    let mut command = Command::new(program);
    command.args(words).stdin(File::open(from)?).stdout(File::create(to)?).stderr(Stdio::piped());
    let start = Instant::now();
    let done = command.spawn()?.wait_with_output()?;
    let seconds = start.elapsed().as_secs_f64();
    if done.status.success() && done.stderr.is_empty() {
        return Ok(seconds);
    }
    let said = String::from_utf8_lossy(&done.stderr);
    Err(io::Error::other(format!("{program}: {}: {said}", done.status)))
}

/// Returns the peak resident memory of the proved program, read after its last record has arrived and while it waits for more input.
fn peak_memory(asked: Vec<u8>, size: usize) -> io::Result<String> {
    let mut child = Command::new(PROVED).stdin(Stdio::piped()).stdout(Stdio::piped()).spawn()?;
    let mut input = child.stdin.take().expect("it is piped");
    let writer = thread::spawn(move || input.write_all(&asked).map(|()| input));
    child.stdout.take().expect("it is piped").read_exact(&mut vec![0; size])?;
    let status = fs::read_to_string(format!("/proc/{}/status", child.id()))?;
    drop(writer.join().expect("it does not panic")?);
    child.wait()?;
    let peak = status.lines().find_map(|line| line.strip_prefix("VmHWM:"));
    Ok(peak.unwrap_or("unknown").trim().to_string())
}

fn report(what: &str, best: [f64; 2], memory: &str) {
    let [ours, theirs] = best.map(|seconds| COUNT as f64 / seconds);
    println!("questions {what}, {COUNT} of them, the best of {ROUNDS} rounds, every record equal:");
    println!("  proved     {ours:8.1} a second, {memory} of memory at its peak");
    println!("  reference  {theirs:8.1} a second");
    println!("  ratio      {:8.1}", best[0] / best[1]);
}
