//! Inputs and outputs by name. `-` or no name means standard input or standard output.

mod beside;
mod input;
mod output;

pub use input::Input;
pub use output::{write_text, Output};

use std::fs::Metadata;
use std::os::unix::fs::MetadataExt;

/// The device and the inode of a file. Two names of one file have the same.
#[derive(Clone, Copy, PartialEq)]
pub struct FileId(u64, u64);

impl FileId {
    pub fn of(file: &Metadata) -> FileId {
        FileId(file.dev(), file.ino())
    }
}
