//! Threads that answer blocks of slots, and their replies in the order of the blocks.
//! The queues are short, so that only a few blocks are in memory at a time.

use crate::proved::record_of;
use crate::stop::Stop;
use crate::wire::SLOT;
use std::io::{self, Read};
use std::sync::mpsc::{sync_channel, Receiver, SyncSender, TryRecvError};
use std::sync::{Arc, Mutex};
use std::thread;

/// The most slots in a block. A slot takes milliseconds; small blocks let the threads finish at nearly the same time.
const BLOCK: usize = 8;

pub struct Reply {
    pub records: Vec<u8>,
    pub questions: u64,
    pub refused: u64,
    /// The number of slots that are not questions: they are refused with number 1.
    pub damaged: u64,
    /// The size of a slot that is cut short. Only the last slot of an input can be.
    pub cut: Option<usize>,
}

struct Work {
    slots: Vec<u8>,
    reply: SyncSender<Reply>,
}

/// A reply to wait for, or, in its place in the order, a read that failed.
type Awaited = Result<Receiver<Reply>, io::Error>;

pub struct Replies {
    order: Receiver<Awaited>,
}

/// Starts a thread that reads and `jobs` threads that answer. They end when the input ends, when the replies are no longer taken, or
/// with the process.
pub fn start(input: Box<dyn Read + Send>, jobs: usize) -> Replies {
    let (to_workers, work) = sync_channel(jobs);
    let (to_order, order) = sync_channel(4 * jobs);
    let work = Arc::new(Mutex::new(work));
    for _ in 0..jobs {
        let work = Arc::clone(&work);
        thread::spawn(move || answer(&work));
    }
    thread::spawn(move || {
        if let Err(e) = read(input, &to_workers, &to_order) {
            // This fails only if the replies are no longer taken. Then nobody needs the error.
            let _ = to_order.send(Err(e));
        }
    });
    Replies { order }
}

fn answer(work: &Mutex<Receiver<Work>>) {
    loop {
        let Ok(Ok(next)) = work.lock().map(|queue| queue.recv()) else { return };
        let mut reply = Reply { records: Vec::new(), questions: 0, refused: 0, damaged: 0, cut: None };
        for slot in next.slots.chunks(SLOT) {
            let record = record_of(slot);
            reply.questions += 1;
            let refused = record[4] == 3;
            reply.refused += u64::from(refused);
            reply.damaged += u64::from(refused && record[14] == 1);
            reply.cut = Some(slot.len()).filter(|size| *size < SLOT);
            reply.records.extend(record);
        }
        // This fails only if the replies are no longer taken. Then nobody needs this one.
        let _ = next.reply.send(reply);
    }
}

/// Passes on whole slots as soon as they have been read, and a short last slot at the end of the input.
fn read(
    mut input: Box<dyn Read + Send>,
    workers: &SyncSender<Work>,
    order: &SyncSender<Awaited>,
) -> io::Result<()> {
    let mut buffer = [0; BLOCK * SLOT];
    let mut had = 0;
    loop {
        let more = match input.read(&mut buffer[had..]) {
            Err(e) if e.kind() == io::ErrorKind::Interrupted => continue,
            more => more?,
        };
        had += more;
        let ready = if more == 0 { had } else { had - had % SLOT };
        if ready > 0 && !hand_over(buffer[..ready].to_vec(), workers, order) {
            return Ok(());
        }
        if more == 0 {
            return Ok(());
        }
        buffer.copy_within(ready..had, 0);
        had -= ready;
    }
}

/// Passes slots to the workers and their reply to the queue of replies. Returns false if the replies are no longer taken.
fn hand_over(slots: Vec<u8>, workers: &SyncSender<Work>, order: &SyncSender<Awaited>) -> bool {
    let (reply, awaited) = sync_channel(1);
    order.send(Ok(awaited)).is_ok() && workers.send(Work { slots, reply }).is_ok()
}

impl Replies {
    /// Returns the next reply in order, or `None` at the end. If the next block has not been read yet, it calls `idle` before it waits,
    /// so that the records so far can be written out.
    pub fn next(
        &mut self,
        mut idle: impl FnMut() -> Result<(), Stop>,
    ) -> Result<Option<io::Result<Reply>>, Stop> {
        let awaited = match self.order.try_recv() {
            Err(TryRecvError::Disconnected) => return Ok(None),
            Ok(awaited) => awaited,
            Err(TryRecvError::Empty) => {
                idle()?;
                match self.order.recv() {
                    Err(_) => return Ok(None),
                    Ok(awaited) => awaited,
                }
            }
        };
        match awaited.map(|reply| reply.recv()) {
            Err(failed) => Ok(Some(Err(failed))),
            Ok(Ok(reply)) => Ok(Some(Ok(reply))),
            Ok(Err(_)) => Stop::said("a thread that answers questions has ended early"),
        }
    }
}

#[cfg(test)]
mod tests;
