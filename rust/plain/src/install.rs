//! "Install: an epoch and a list of 1,024 entries, a place or 255 for none. It replaces the target,
//! and T becomes G." Slots may be left with none only where nobody subscribes to them.

use std::collections::BTreeSet;

use crate::group::Group;
use crate::limits::{NO_PLACE, NO_SLOT, PARTITIONS, PLACES, SLOTS};
use crate::member::subscribes;
use crate::protocol::{Answer, Place, Reply, Slot};
use crate::records::Records;
use crate::refusal::Refusal;

/// Whether "an existing slot has no owner while some member subscribes to its topic" is a fault.
#[derive(Clone, Copy, PartialEq, Eq)]
enum LeftOver {
    Bad,
    Allowed,
}

impl Group {
    pub fn install(&mut self, epoch: i32, entries: &[u8], records: &mut [u8]) -> Reply {
        self.try_install(epoch, entries, LeftOver::Bad, records)
            .unwrap_or_else(Reply::refused)
    }

    /// As `install`, but any slot may be left over. "Journals are read without this rule", so a
    /// journal may have what this writes; it is for tests of its reader.
    pub fn install_partial(&mut self, epoch: i32, entries: &[u8], records: &mut [u8]) -> Reply {
        self.try_install(epoch, entries, LeftOver::Allowed, records)
            .unwrap_or_else(Reply::refused)
    }

    fn try_install(
        &mut self,
        epoch: i32,
        entries: &[u8],
        left_over: LeftOver,
        records: &mut [u8],
    ) -> Result<Reply, Refusal> {
        self.check_install(epoch, entries, left_over)?;
        let targets = targets_by_place(entries);
        // "7 for each place whose set changed, rising, then 6".
        let mut log = Records::new();
        for (place, (before, after)) in self.targets.iter().zip(&targets).enumerate() {
            if before != after {
                log.target(place as Place, after);
            }
        }
        log.target_epoch(self.epoch);
        let written = log.store(records)?;

        self.targets = targets;
        self.target_places = entries.iter().map(|&entry| named(entry)).collect();
        self.target_epoch = self.epoch;
        Ok(Reply {
            answer: Answer::Done,
            written,
        })
    }

    fn check_install(
        &self,
        epoch: i32,
        entries: &[u8],
        left_over: LeftOver,
    ) -> Result<(), Refusal> {
        // 1006: "list length not 1,024 (slot reported 65,535)".
        if entries.len() != SLOTS {
            return Err(Refusal::BadTarget { slot: NO_SLOT });
        }
        // 1004: "epoch is not G".
        if epoch != self.epoch {
            return Err(Refusal::Stale);
        }
        // 1005: "T equals G".
        if self.target_epoch == self.epoch {
            return Err(Refusal::Already);
        }
        // 1006 again: "The first bad slot of either sort is reported."
        match self.first_bad_slot(entries, left_over) {
            Some(slot) => Err(Refusal::BadTarget { slot }),
            None => Ok(()),
        }
    }

    /// "an entry not 255 whose place is above 31 or empty, or whose slot doesn't exist, or whose
    /// member doesn't subscribe"; "also when an existing slot has no owner while some member
    /// subscribes to its topic".
    fn first_bad_slot(&self, entries: &[u8], left_over: LeftOver) -> Option<Slot> {
        let mut subscriptions = [None; PLACES];
        // The topics that some member subscribes to.
        let mut wanted = 0;
        for member in self.members.values() {
            subscriptions[usize::from(member.place)] = Some(member.subscription);
            wanted |= member.subscription;
        }
        let is_bad = |(slot, &entry): (usize, &u8)| {
            let topic = slot / PARTITIONS;
            let Some(place) = named(entry) else {
                let is_left_over = self.exists(slot) && subscribes(wanted, topic);
                return left_over == LeftOver::Bad && is_left_over;
            };
            let subscription = subscriptions.get(usize::from(place)).copied().flatten();
            !self.exists(slot) || !subscription.is_some_and(|set| subscribes(set, topic))
        };
        let slot = entries.iter().enumerate().position(is_bad)?;
        Some(slot as Slot)
    }

    /// "a slot exists if its topic does and p is below the topic's count".
    fn exists(&self, slot: usize) -> bool {
        let partition = slot % PARTITIONS;
        self.topics[slot / PARTITIONS].is_some_and(|topic| partition < usize::from(topic.count))
    }
}

/// The place of an entry, "or 255 for none".
fn named(entry: u8) -> Option<Place> {
    (entry != NO_PLACE).then_some(entry)
}

/// The target of each place; every entry is 255 or a place up to 31.
fn targets_by_place(entries: &[u8]) -> [BTreeSet<Slot>; PLACES] {
    let mut targets: [BTreeSet<Slot>; PLACES] = Default::default();
    for (slot, &entry) in entries.iter().enumerate() {
        if let Some(place) = named(entry) {
            targets[usize::from(place)].insert(slot as Slot);
        }
    }
    targets
}
