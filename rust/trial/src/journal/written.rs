//! A journal as a broker writes it: random events through the plain coordinator, the batch of each
//! that stored records, and the group after it.

use super::older::some_world;
use crate::coordinator::Coordinator;
use crate::data::{Answer, Event, Start};
use crate::generate::Profile;
use crate::journal::Reads;
use crate::lent::Lent;
use crate::random::Random;
use crate::sides::Reference;
use crate::snapshot::Snapshot;

/// Of a run that hardly stores anything, no more events than this for each batch asked for.
const EVENTS_PER_BATCH: usize = 50;

#[derive(Clone)]
pub struct Journal {
    /// The whole file.
    pub bytes: Vec<u8>,
    pub batches: Vec<Batch>,
    fresh: Reference,
}

#[derive(Clone)]
pub struct Batch {
    /// What wrote it.
    pub event: Event,
    /// Where its length stands, and where it ends.
    pub offset: usize,
    pub end: usize,
    pub records: Vec<u8>,
    pub after: Reference,
    /// Whether it is of an install that leaves slots over.
    pub leaves_slots: bool,
}

impl Journal {
    pub fn new(tick: u32) -> Journal {
        Journal {
            bytes: Reference::HEADING.to_vec(),
            batches: Vec::new(),
            fresh: Reference::fresh(tick),
        }
    }

    /// So many batches, or fewer where the events store too little. A file begins with a fresh group,
    /// whatever the profile says.
    pub fn made(profile: &'static Profile, random: Random, batches: usize) -> Journal {
        let (mut world, serve) = some_world(profile, random);
        let (Start::Fresh { tick } | Start::AtEpochs { tick, .. }) = world.start();
        let mut journal = Journal::new(tick);
        let mut group = journal.fresh.clone();
        let mut lent = Lent::default();
        for _ in 0..batches * EVENTS_PER_BATCH {
            if journal.batches.len() == batches {
                break;
            }
            let turn = world.next(&group);
            lent.fill(&turn);
            let reply = serve(&mut group, &turn.event, &mut lent.records, &mut lent.list);
            let told = &lent.list[..reply.answer.told()];
            world.learn(&turn, reply, told);
            if !matches!(reply.answer, Answer::Refused { .. }) {
                journal.keep(turn.event, &lent.records[..reply.written], &group);
            }
        }
        journal
    }

    /// An accepted event, what it stored, and the group after it. Where nothing was stored, the group
    /// differs from the one before in its ticks alone, and is not kept.
    pub fn keep(&mut self, event: Event, records: &[u8], after: &Reference) {
        if records.is_empty() {
            return;
        }
        let offset = self.bytes.len();
        self.bytes.extend(framed(records));
        let is_install = matches!(event, Event::Install { .. });
        self.batches.push(Batch {
            leaves_slots: is_install && !Snapshot::of(after).holes().is_empty(),
            event,
            offset,
            end: self.bytes.len(),
            records: records.to_vec(),
            after: after.clone(),
        });
    }

    /// The group after so many batches, but for its ticks.
    pub fn group_after(&self, batches: usize) -> &Reference {
        match batches.checked_sub(1) {
            None => &self.fresh,
            Some(last) => &self.batches[last].after,
        }
    }

    /// Where so many batches end; of none, where the heading does.
    pub fn end_of(&self, batches: usize) -> usize {
        match batches.checked_sub(1) {
            None => Reference::HEADING.len(),
            Some(last) => self.batches[last].end,
        }
    }

    /// How many batches end at the byte or before it.
    pub fn whole_at(&self, byte: usize) -> usize {
        self.batches.partition_point(|batch| batch.end <= byte)
    }

    /// How many of the first batches are of installs that leave slots over.
    pub fn leaving_slots(&self, batches: usize) -> u64 {
        let first = self.batches[..batches].iter();
        first.filter(|batch| batch.leaves_slots).count() as u64
    }

    /// The length and the records of a batch.
    pub fn frame_of(&self, batch: usize) -> &[u8] {
        let batch = &self.batches[batch];
        &self.bytes[batch.offset..batch.end]
    }
}

/// The length and the records, which may be too many or none, as any writer would have them.
pub fn framed(records: &[u8]) -> Vec<u8> {
    let mut bytes = Vec::new();
    super::records::number(records.len() as u32, &mut bytes);
    bytes.extend(records);
    bytes
}

#[cfg(test)]
mod tests {
    use super::*;
    use crate::data::ROOMY;
    use crate::generate::PROFILES;

    #[test]
    fn frames_are_those_of_plain() {
        let journal = Journal::made(&PROFILES[2], Random::new(1), 100);
        assert_eq!(journal.batches.len(), 100);
        for (index, batch) in journal.batches.iter().enumerate() {
            let mut out = [0; ROOMY + 2];
            let written = Reference::frame(&batch.records, &mut out).unwrap();
            assert_eq!(out[..written], *journal.frame_of(index));
            assert_eq!(journal.end_of(index), batch.offset);
            assert_eq!(journal.whole_at(batch.end - 1), index);
            assert_eq!(journal.whole_at(batch.end), index + 1);
        }
    }
}
