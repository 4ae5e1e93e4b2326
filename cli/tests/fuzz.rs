//! Runs every command of the real program on damaged inputs. Whatever the damage is, each run has to keep the rules in
//! `rules` and `commands`. The damage is random, but its seed is fixed, so that this test always tries the same inputs.
//!
//! `LAMBERT` names the program lambert, whose records `solve` has to write. `LAMBERT_SEED`, a whole number, may give
//! another seed.

#[path = "fuzz/bytes.rs"]
mod bytes;
#[path = "fuzz/case.rs"]
mod case;
#[path = "fuzz/cases.rs"]
mod cases;
#[path = "fuzz/chance.rs"]
mod chance;
#[path = "fuzz/commands.rs"]
mod commands;
#[path = "fuzz/folder.rs"]
mod folder;
#[path = "fuzz/opm.rs"]
mod opm;
#[path = "fuzz/rules.rs"]
mod rules;
#[path = "fuzz/samples.rs"]
mod samples;
#[path = "fuzz/texts.rs"]
mod texts;

use case::Case;
use chance::Chance;
use folder::Folder;
use samples::Samples;
use std::fs;
use std::io::Write;
use std::path::Path;
use std::sync::atomic::{AtomicUsize, Ordering};
use std::sync::Mutex;

/// What is tried, the number of inputs, and the function that makes one of them.
type Trial = (&'static str, usize, fn(&mut Chance, &Samples) -> Case);

const TRIALS: [Trial; 14] = [
    ("ask --csv", 350, cases::ask_list),
    ("ask with options", 250, cases::ask_options),
    ("solve", 250, cases::solve),
    ("show", 300, cases::show),
    ("plot", 200, cases::plot),
    ("board", 200, cases::board),
    ("board --board", 150, cases::stored_board),
    ("check and show", 300, cases::check_records),
    ("check --questions", 150, cases::check_questions),
    ("opm", 200, opm::single),
    ("opm --list", 200, opm::list),
    ("opm --read", 200, opm::read),
    ("answer", 100, cases::answer),
    ("wrong words", 100, cases::wrong_words),
];

const SEED: u64 = 20_261_117;
const THREADS: usize = 2;
/// The most failures that are printed.
const TOLD: usize = 5;

/// A trial and what came of one input: the status of the run, or the rule that it breaks.
type Tried = (usize, Result<i32, String>);

#[test]
#[ignore = "needs the program lambert; cli/test runs it"]
fn every_command_keeps_the_rules_on_damaged_inputs() {
    let seed = std::env::var("LAMBERT_SEED").map_or(SEED, |seed| seed.parse().expect("a whole number"));
    let root = std::env::temp_dir().join(format!("lambert-cli-fuzz.{}", std::process::id()));
    let all = all(seed, &root);
    let broken: Vec<&String> = all.iter().filter_map(|(_, came)| came.as_ref().err()).collect();
    broken.iter().take(TOLD).for_each(|words| tell(words));
    assert!(broken.is_empty(), "{} of {} inputs break a rule", broken.len(), all.len());
    fs::remove_dir_all(&root).expect("the folder of this test is removed");
    let counts = TRIALS.iter().enumerate().map(|(i, (name, count, _))| {
        let taken = all.iter().filter(|(trial, came)| *trial == i && *came == Ok(0)).count();
        format!("{name} {count} ({taken} with status 0)")
    });
    tell(&format!("{} damaged inputs: {}", all.len(), counts.collect::<Vec<_>>().join(", ")));
}

/// Tries all inputs, on two threads. The folder of an input that breaks a rule is kept.
fn all(seed: u64, root: &Path) -> Vec<Tried> {
    let samples = Samples::make(&Folder::new(&root.join("samples")));
    let inputs = TRIALS.iter().enumerate().flat_map(|(i, (_, count, _))| (0..*count).map(move |n| (i, n)));
    let inputs: Vec<(usize, usize)> = inputs.collect();
    let (next, tried) = (AtomicUsize::new(0), Mutex::new(Vec::new()));
    let work = |thread: usize| {
        while let Some(&(trial, n)) = inputs.get(next.fetch_add(1, Ordering::Relaxed)) {
            let seed = Chance::new(seed).next() ^ ((trial as u64) << 32 | n as u64);
            let path = root.join(format!("{thread}"));
            let came = run(trial, seed, &samples, &Folder::new(&path)).map_err(|words| {
                let kept = root.join(format!("failed-{trial}-{n}"));
                fs::rename(&path, &kept).expect("a folder is renamed");
                format!("{}: {words}", kept.display())
            });
            tried.lock().expect("the other thread goes on").push((trial, came));
        }
    };
    std::thread::scope(|scope| {
        let work = &work;
        (0..THREADS).for_each(|thread| drop(scope.spawn(move || work(thread))));
    });
    tried.into_inner().expect("both threads have ended")
}

/// Makes one damaged input, runs the command on it and checks the rules.
fn run(trial: usize, seed: u64, samples: &Samples, folder: &Folder) -> Result<i32, String> {
    let case = TRIALS[trial].2(&mut Chance::new(seed), samples);
    folder.fill(&case.files);
    let found = folder.run(Path::new(samples::PROGRAM), &case.words, case.input)?;
    let checked = rules::kept(&case, &found, folder).and_then(|()| (case.also)(&case, &found, folder));
    checked.map(|()| found.status.unwrap_or_default()).map_err(|words| {
        let told = String::from_utf8_lossy(&found.err).chars().take(300).collect::<String>();
        let command = format!("{:?}", case.words).chars().take(600).collect::<String>();
        format!("{words}\n  arguments {command}, standard input {:?}\n  standard error {told:?}", case.input)
    })
}

/// Prints a line to standard error, also if the test passes.
fn tell(words: &str) {
    writeln!(std::io::stderr(), "fuzz: {words}").expect("standard error can be written");
}
