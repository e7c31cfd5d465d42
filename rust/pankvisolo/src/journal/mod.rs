//! The journal: a file from which a group is read back, by the broker that takes over.
//!
//! It has the heading `GRJ1`, and then for each event that wrote records a batch: their length, as a
//! number in groups of seven bits, and the records. What a reading needs of the file is that an
//! answer goes out only once its batch and all before it are stored, and that a torn tail is cut off
//! before anything is stored again. [`Store`] keeps to that over a file; a host that stores
//! elsewhere has [`frame`], [`read`] and [`Reader`].
//!
//! A journal is read without the rule that a target leaves no slot over (see [`Group::install`]): a
//! file that a broker from before that rule wrote is read and gone on with.
//!
//! ```
//! use pankvisolo::journal::{self, Verdict};
//! use pankvisolo::Group;
//!
//! let (mut records, mut batch) = ([0; 4096], [0; 4098]); // room enough for any event
//! let mut file = journal::HEADING.to_vec();
//! let mut group = Group::new(1_000);
//! let reply = group.topic(0, [0x11; 16], 3, &mut records);
//! if let Some(length) = journal::frame(&records[..reply.written], &mut batch) {
//!     file.extend(&batch[..length]);
//! }
//! // Now the answer may go out. What is left of the file after a crash is read at a later tick.
//! file.extend([0x1D, 0x05]);
//! let reading = journal::read(&file, 2_000);
//! assert_eq!(reading.group.topic_at(0).map(|topic| topic.count), Some(3));
//! assert_eq!(reading.verdict, Verdict::Torn { tail: &[0x1D, 0x05] });
//! file.truncate(reading.end);
//! ```

mod reader;
mod store;

pub use reader::Reader;
pub use store::Store;

use crate::ffi;
use crate::group::Group;

/// What a journal begins with.
pub const HEADING: [u8; 4] = *b"GRJ1";

/// The length and the records of one event, as they stand in the file: the bytes that `out` now
/// begins with. 4,098 are room enough for any event.
///
/// None, and nothing written, where they don't fit `out`, or `records` is empty or longer than 4,096.
pub fn frame(records: &[u8], out: &mut [u8]) -> Option<usize> {
    match ffi::frame(records, out) {
        0 => None,
        written => Some(written),
    }
}

/// Reads a journal. The group is that after the last good batch, with every tick the tick of reading.
pub fn read(bytes: &[u8], tick: u32) -> Reading<'_> {
    let mut group = Group::new(tick);
    let reading = ffi::read_journal(&mut group.value, tick, bytes);
    let end = reading.end;
    Reading {
        group,
        end,
        verdict: match reading.verdict {
            ffi::WHOLE => Verdict::Whole,
            ffi::TORN => Verdict::Torn {
                tail: &bytes[end..],
            },
            ffi::REFUSED => Verdict::Refused { offset: end },
            other => no_verdict(other),
        },
    }
}

/// What a journal was found to be.
#[derive(Clone)]
pub struct Reading<'a> {
    /// The one after the last good batch. Every tick in it is the tick of reading.
    pub group: Group,
    /// Where the good part ends, and the next batch is to stand. 0 where the heading is cut or wrong.
    pub end: usize,
    /// What follows the good part.
    pub verdict: Verdict<'a>,
}

/// What follows the good part of a journal.
#[derive(Clone, Copy, PartialEq, Eq, Debug)]
pub enum Verdict<'a> {
    /// Nothing.
    Whole,
    /// The file ends inside its heading, a length or a batch, and is right so far.
    Torn {
        /// What is to be cut off before anything is stored: the caller's bytes from `end` on.
        tail: &'a [u8],
    },
    /// Another heading, a length that no batch has, or a batch that no event would write for the
    /// group so far. An install that leaves slots over counts as one that would.
    Refused {
        /// 0, or where the length stands.
        offset: usize,
    },
}

fn no_verdict(number: u32) -> ! {
    unreachable!("no verdict has the number {number}")
}
