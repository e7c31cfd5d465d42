//! A journal read in parts.

use super::{no_verdict, Verdict, HEADING};
use crate::ffi;
use crate::group::Group;

/// Reads a journal in parts, for a host that has not the whole file in memory. After any parts it
/// stands where [`read`](super::read) would stand with the bytes of all of them. A target
/// that leaves slots over is read too.
///
/// ```
/// use pankvisolo::journal::{Reader, Verdict};
///
/// let mut reader = Reader::new(2_000);
/// reader.push(b"GR");
/// assert_eq!(reader.verdict(), Verdict::Torn { tail: b"GR" });
/// reader.push(b"J1");
/// assert_eq!((reader.end(), reader.verdict()), (4, Verdict::Whole));
/// reader.push(&[0]);
/// assert_eq!(reader.verdict(), Verdict::Refused { offset: 4 });
/// ```
pub struct Reader {
    group: Group,
    tick: u32,
    end: usize,
    is_refused: bool,
    /// What was given from `end` on: less than a batch and its length.
    rest: Vec<u8>,
}

impl Reader {
    /// At the start of a journal, which is read at a tick.
    pub fn new(tick: u32) -> Reader {
        Reader {
            group: Group::new(tick),
            tick,
            end: 0,
            is_refused: false,
            rest: Vec::new(),
        }
    }

    /// Reads on in the next bytes of the file. What follows a refusal is not looked at.
    pub fn push(&mut self, bytes: &[u8]) {
        if self.is_refused {
            return;
        }
        self.rest.extend_from_slice(bytes);
        let mut taken = 0;
        if self.end == 0 {
            taken = self.heading();
        }
        if self.end + taken > 0 {
            taken = self.batches(taken);
        }
        self.rest.drain(..taken);
        self.end += taken;
    }

    /// How many bytes the heading has, once it is there.
    fn heading(&mut self) -> usize {
        let begun = self.rest.len().min(HEADING.len());
        let reading = ffi::read_journal(&mut self.group.value, self.tick, &self.rest[..begun]);
        self.is_refused = reading.verdict == ffi::REFUSED;
        reading.end
    }

    /// Where in the rest the good batches end, from `at` on.
    fn batches(&mut self, mut at: usize) -> usize {
        loop {
            let batch = ffi::next_batch(&self.rest, at);
            self.is_refused = match batch.verdict {
                ffi::WHOLE | ffi::TORN => return at,
                ffi::REFUSED => true,
                ffi::BATCH => {
                    let records = &self.rest[batch.start..batch.end];
                    !ffi::read_batch(&mut self.group.value, self.tick, records)
                }
                other => no_verdict(other),
            };
            if self.is_refused {
                return at;
            }
            at = batch.end;
        }
    }

    /// The group after the last good batch so far. Every tick in it is the tick of reading.
    pub fn group(&self) -> &Group {
        &self.group
    }

    /// Where the good part ends so far, and the next batch is to stand.
    pub fn end(&self) -> usize {
        self.end
    }

    /// What the journal is found to be, where it ends here. A tail is as it was given.
    pub fn verdict(&self) -> Verdict<'_> {
        if self.is_refused {
            return Verdict::Refused { offset: self.end };
        }
        match self.end > 0 && self.rest.is_empty() {
            true => Verdict::Whole,
            false => Verdict::Torn { tail: &self.rest },
        }
    }
}
