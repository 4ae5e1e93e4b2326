//! A folder in which the program runs, with files for what it reads and prints.

use std::collections::BTreeMap;
use std::ffi::OsString;
use std::fs::{self, File};
use std::path::{Path, PathBuf};
use std::process::Command;
use std::time::{Duration, Instant};

/// The longest time that a run may take.
const LONGEST: Duration = Duration::from_secs(20);

pub struct Folder {
    /// The working folder of the program.
    work: PathBuf,
    /// The folder for temporary files of the program.
    temporary: PathBuf,
}

/// What a run did. There is no status if a signal has ended it.
pub struct Found {
    pub status: Option<i32>,
    pub out: Vec<u8>,
    pub err: Vec<u8>,
}

impl Folder {
    /// Makes the folder anew.
    pub fn new(path: &Path) -> Folder {
        let _ = fs::remove_dir_all(path);
        let folder = Folder { work: path.join("work"), temporary: path.join("temporary") };
        for made in [&folder.work, &folder.temporary] {
            fs::create_dir_all(made).expect("a folder is made");
        }
        folder
    }

    pub fn fill(&self, files: &[(&'static str, Vec<u8>)]) {
        for (name, bytes) in files {
            fs::write(self.work.join(name), bytes).expect("a file is written");
        }
    }

    /// Runs a program in the working folder. Its standard input is a file of the folder or empty.
    pub fn run(&self, program: &Path, words: &[OsString], input: Option<&str>) -> Result<Found, String> {
        let input = input.map_or(PathBuf::from("/dev/null"), |name| self.work.join(name));
        let [out, err] = ["out", "err"].map(|name| self.work.with_file_name(name));
        let create = |path: &Path| File::create(path).expect("a file is made");
        let mut child = Command::new(program)
            .args(words)
            .current_dir(&self.work)
            .env("TMPDIR", &self.temporary)
            .stdin(File::open(input).expect("a file is there"))
            .stdout(create(&out))
            .stderr(create(&err))
            .spawn()
            .expect("the program starts");
        let began = Instant::now();
        let status = loop {
            if let Some(status) = child.try_wait().expect("the program can be waited for") {
                break status;
            }
            if began.elapsed() > LONGEST {
                child.kill().and_then(|()| child.wait()).expect("the program can be ended");
                return Err(format!("{words:?} does not end within {LONGEST:?}"));
            }
            std::thread::sleep(Duration::from_micros(500));
        };
        let read = |path: &Path| fs::read(path).expect("a file is read");
        Ok(Found { status: status.code(), out: read(&out), err: read(&err) })
    }

    /// Returns the files in the working folder, with their bytes.
    pub fn files(&self) -> BTreeMap<String, Vec<u8>> {
        let mut found = BTreeMap::new();
        collect(&self.work, "", &mut found);
        found
    }

    pub fn has_temporary_files(&self) -> bool {
        fs::read_dir(&self.temporary).expect("the folder is read").next().is_some()
    }
}

fn collect(path: &Path, before: &str, found: &mut BTreeMap<String, Vec<u8>>) {
    for entry in fs::read_dir(path).expect("the folder is read") {
        let path = entry.expect("the folder is read").path();
        let name = format!("{before}{}", path.file_name().unwrap_or_default().to_string_lossy());
        match path.is_dir() {
            true => collect(&path, &format!("{name}/"), found),
            false => drop(found.insert(name, fs::read(&path).expect("a file is read"))),
        }
    }
}
