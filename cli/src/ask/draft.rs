//! Questions that are not written yet, because a later row may have a mistake. They are kept in a temporary file, so
//! that a long list needs little memory.

use crate::mistakes::Mistakes;
use crate::stop::Stop;
use crate::streams::Output;
use crate::wire::{u32_at, u64_at, Question, SLOT};
use crate::words::printable;
use std::collections::HashMap;
use std::fs::{self, File, OpenOptions};
use std::io::{self, BufReader, BufWriter, Read, Seek, Write};
use std::os::unix::fs::FileExt;

/// The size of an item of the file: the line of a question, and its slot.
const LINE: usize = 8;
const ITEM: usize = LINE + SLOT;

/// About how many questions have their job and revision in memory at a time.
const SHARE: u64 = 1 << 15;

pub struct Draft {
    file: BufWriter<File>,
    count: u64,
    /// The number of questions that repeat an earlier one.
    pub repeated: u64,
}

impl Draft {
    pub fn new() -> Result<Draft, Stop> {
        let path = std::env::temp_dir().join(format!("lambert-cli.{}.draft", std::process::id()));
        let opened = OpenOptions::new().read(true).write(true).create_new(true).open(&path);
        // The name is removed at once: the file lasts as long as it is open.
        let file = opened.and_then(|file| fs::remove_file(&path).map(|()| file)).map_err(failed)?;
        Ok(Draft { file: BufWriter::new(file), count: 0, repeated: 0 })
    }

    pub fn add(&mut self, line: usize, question: &Question) -> Result<(), Stop> {
        self.count += 1;
        let item = [&(line as u64).to_le_bytes()[..], &question.bytes()].concat();
        self.file.write_all(&item).map_err(failed)
    }

    pub fn count(&self) -> u64 {
        self.count
    }

    pub fn write(mut self, output: &mut Output) -> Result<(), Stop> {
        self.each(|_, item| output.put(&item[LINE..]))
    }

    /// Records a mistake for each question whose job and revision an earlier line has with other values, and counts those
    /// that are equal to an earlier one. Looks at a share of the jobs at a time.
    pub fn differing(&mut self, name: &str, mistakes: &mut Mistakes) -> Result<(), Stop> {
        let shares = self.count.div_ceil(SHARE).max(1);
        let mut repeated = 0;
        for share in 0..shares {
            let mut first = HashMap::new();
            let file = self.file.get_ref().try_clone().map_err(failed)?;
            self.each(|at, item| {
                let key = (u32_at(item, LINE + 6), u32_at(item, LINE + 10));
                let place = match share_of(key, shares) == share {
                    true => *first.entry(key).or_insert(at),
                    false => return Ok(()),
                };
                if place == at {
                    return Ok(());
                }
                let mut earlier = [0; ITEM];
                file.read_exact_at(&mut earlier, place * ITEM as u64).map_err(failed)?;
                if earlier[LINE..] == item[LINE..] {
                    repeated += 1;
                } else {
                    let lines = format!("lines {} and {}", u64_at(&earlier, 0), u64_at(item, 0));
                    let (job, revision) = key;
                    mistakes.push(format!(
                        "{name}: {lines} ask different questions as job {job}, revision {revision}"
                    ));
                }
                Ok(())
            })?;
        }
        self.repeated = repeated;
        Ok(())
    }

    /// Calls a function with the number and the bytes of each item.
    fn each(&mut self, mut call: impl FnMut(u64, &[u8]) -> Result<(), Stop>) -> Result<(), Stop> {
        self.file.flush().map_err(failed)?;
        let mut file = BufReader::new(self.file.get_ref());
        file.rewind().map_err(failed)?;
        let mut item = [0; ITEM];
        for at in 0..self.count {
            file.read_exact(&mut item).map_err(failed)?;
            call(at, &item)?;
        }
        Ok(())
    }
}

/// Returns the share that a job and a revision belong to. The factors are odd and large, so that jobs with a common
/// divisor are spread over all shares.
fn share_of((job, revision): (u32, u32), shares: u64) -> u64 {
    let mixed = u64::from(job).wrapping_mul(0x9E37_79B9_7F4A_7C15);
    let mixed = mixed ^ u64::from(revision).wrapping_mul(0xC2B2_AE3D_27D4_EB4F);
    (mixed >> 32) % shares
}

fn failed(e: io::Error) -> Stop {
    let folder = std::env::temp_dir();
    let folder = printable(&folder.to_string_lossy());
    Stop::Said(format!(
        "cannot keep the questions in a temporary file in {folder}: {e}; to use another folder, set TMPDIR"
    ))
}
