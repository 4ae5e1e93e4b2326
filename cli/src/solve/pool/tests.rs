use super::*;

/// An input that gives at most `step` bytes at a time and then, if `fails` is set, an error.
struct Drip {
    bytes: Vec<u8>,
    at: usize,
    step: usize,
    fails: bool,
}

impl Read for Drip {
    fn read(&mut self, buffer: &mut [u8]) -> io::Result<usize> {
        let n = self.step.min(buffer.len()).min(self.bytes.len() - self.at);
        if n == 0 && self.fails {
            return Err(io::Error::other("broken"));
        }
        buffer[..n].copy_from_slice(&self.bytes[self.at..self.at + n]);
        self.at += n;
        Ok(n)
    }
}

fn all(input: Drip, jobs: usize) -> (Vec<u8>, u64, bool) {
    let mut replies = start(Box::new(input), jobs);
    let (mut records, mut questions) = (Vec::new(), 0);
    while let Ok(Some(reply)) = replies.next(|| Ok(())) {
        match reply {
            Ok(reply) => {
                records.extend(reply.records);
                questions += reply.questions;
            }
            Err(_) => return (records, questions, true),
        }
    }
    (records, questions, false)
}

/// Returns copies of job 105 of the samples, which the entrance checks refuse, with the job numbers 1 to `count`.
fn slots(count: u32) -> Vec<u8> {
    let slot = &include_bytes!("../../../../samples/questions")[5 * SLOT..];
    let numbered = |job: u32| [&slot[..6], &job.to_le_bytes(), &slot[10..]].concat();
    (1..=count).flat_map(numbered).collect()
}

#[test]
fn replies_keep_the_order_however_the_bytes_come() {
    let bytes = slots(500);
    let expected: Vec<u8> = bytes.chunks(SLOT).flat_map(record_of).collect();
    for (step, jobs) in [(1, 3), (81, 2), (82, 1), (83, 8), (100_000, 4)] {
        let input = Drip { bytes: bytes.clone(), at: 0, step, fails: false };
        assert!(all(input, jobs) == (expected.clone(), 500, false), "{step} at a time, {jobs} jobs");
    }
}

#[test]
fn a_short_last_slot_is_handed_over_but_not_after_a_failed_read() {
    let bytes = slots(3)[..200].to_vec();
    for (fails, questions) in [(false, 3), (true, 2)] {
        let (records, count, failed) = all(Drip { bytes: bytes.clone(), at: 0, step: 50, fails }, 2);
        assert_eq!((records.len() as u64, count, failed), (16 * questions, questions, fails));
    }
    assert_eq!(all(Drip { bytes: Vec::new(), at: 0, step: 1, fails: false }, 2), (Vec::new(), 0, false));
}
