//! The buffer and the list that are lent to an event: what they hold before, and what of them may
//! change.

use std::sync::OnceLock;

use crate::data::{Reply, Turn, ROOMY, SLOTS};
use crate::random::Random;

/// The buffer and the list lent to one side.
#[derive(Clone, Default)]
pub struct Lent {
    pub records: Vec<u8>,
    pub list: Vec<u16>,
}

/// More than is ever lent, and as much again as `fill` can skip.
const PATTERN: usize = 2 * ROOMY + 256;

/// What lent memory holds before an event: anything, but always the same for the same `fill`.
fn pattern() -> &'static Lent {
    static PATTERNS: OnceLock<Lent> = OnceLock::new();
    PATTERNS.get_or_init(|| {
        let mut random = Random::new(0);
        Lent {
            records: (0..PATTERN).map(|_| random.next() as u8).collect(),
            list: (0..PATTERN).map(|_| random.next() as u16).collect(),
        }
    })
}

impl Lent {
    /// Lends what the turn says, up to twice what any event needs.
    pub fn fill(&mut self, turn: &Turn) {
        let skip = usize::from(turn.fill);
        self.records.clear();
        self.records
            .extend_from_slice(&pattern().records[skip..skip + turn.buffer.min(2 * ROOMY)]);
        self.list.clear();
        self.list
            .extend_from_slice(&pattern().list[skip..skip + turn.list.min(2 * SLOTS)]);
    }

    pub fn difference(&self, other: &Lent) -> Option<String> {
        if self.records != other.records {
            let at = (0..self.records.len()).find(|&at| self.records[at] != other.records[at])?;
            let (ours, theirs) = (self.records[at], other.records[at]);
            return Some(format!("byte {at} is {ours:02X} and {theirs:02X}"));
        }
        if self.list != other.list {
            let at = (0..self.list.len()).find(|&at| self.list[at] != other.list[at])?;
            let (ours, theirs) = (self.list[at], other.list[at]);
            return Some(format!("list entry {at} is {ours} and {theirs}"));
        }
        None
    }

    /// "bytes after the last are unchanged"; "the list beyond them is unchanged"; at a refusal
    /// both are untouched from their start. What of that does not hold, in words.
    pub fn overstepped(&self, turn: &Turn, reply: Reply) -> Option<&'static str> {
        let skip = usize::from(turn.fill);
        let (written, told) = (reply.written, reply.answer.told());
        if reply.answer.is_refusal() && written != 0 {
            return Some("a refusal counts bytes written");
        }
        if written > self.records.len() || told > self.list.len() {
            return Some("more is counted than was lent");
        }
        let bytes = &pattern().records[skip + written..skip + self.records.len()];
        if self.records[written..] != *bytes {
            return Some("the buffer changed beyond the records");
        }
        let entries = &pattern().list[skip + told..skip + self.list.len()];
        if self.list[told..] != *entries {
            return Some("the list changed beyond the slots told");
        }
        None
    }
}
