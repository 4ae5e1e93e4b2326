//! A file that is written beside its final name and renamed when it is complete. So a file under its final name is
//! always a whole one: a run that is killed, or that fills the disk, leaves the old file or none.

use std::fs::{self, File, OpenOptions};
use std::io;
use std::path::{Path, PathBuf};

pub struct Beside {
    file: File,
    made: PathBuf,
    name: PathBuf,
}

impl Beside {
    /// Creates the file beside `name`. If `name` is a link, the file that it means will be replaced or made. A file that is replaced
    /// passes on its permissions; if they do not allow writing, nothing is created.
    pub fn create(name: &str) -> io::Result<(File, Beside)> {
        let name = followed(name)?;
        let present = fs::metadata(&name).ok();
        if present.is_some() {
            OpenOptions::new().write(true).open(&name)?;
        }
        let Some(last) = name.file_name() else { return Err(io::ErrorKind::IsADirectory.into()) };
        // A name may be as long as the system allows, so only its beginning is used.
        let start: String = last.to_string_lossy().chars().take(50).collect();
        let (file, made) = (0..100)
            .map(|other| create_new(name.with_file_name(part(&start, other))))
            .find(|made| !matches!(made, Err(e) if e.kind() == io::ErrorKind::AlreadyExists))
            .unwrap_or_else(|| Err(io::ErrorKind::AlreadyExists.into()))?;
        let beside = Beside { file: file.try_clone()?, made, name };
        if let Some(present) = present {
            fs::set_permissions(&beside.made, present.permissions())?;
        }
        Ok((file, beside))
    }

    /// Puts the bytes on the disk and gives the file its name.
    pub fn finish(self) -> io::Result<()> {
        self.file.sync_all()?;
        fs::rename(&self.made, &self.name)
    }
}

/// Returns the name of the file beside. A run that was killed may have left a file with the number of this process; then
/// another name is tried.
fn part(start: &str, other: u32) -> String {
    let process = std::process::id();
    match other {
        0 => format!(".{start}.{process}.part"),
        _ => format!(".{start}.{process}.{other}.part"),
    }
}

fn create_new(path: PathBuf) -> io::Result<(File, PathBuf)> {
    OpenOptions::new().write(true).create_new(true).open(&path).map(|file| (file, path))
}

/// The most links that are followed one after the other. The system has the same limit.
const LINKS: u32 = 40;

/// Follows a link to the file that it means, which need not exist.
fn followed(name: &str) -> io::Result<PathBuf> {
    let mut path = PathBuf::from(name);
    for _ in 0..LINKS {
        match fs::read_link(&path) {
            Ok(meant) => path = path.parent().unwrap_or(Path::new("")).join(meant),
            Err(_) => return Ok(path),
        }
    }
    Err(io::Error::other("too many links"))
}

/// Removes the file beside. After a rename it is not there any more, which is not an error.
impl Drop for Beside {
    fn drop(&mut self) {
        let _ = fs::remove_file(&self.made);
    }
}
