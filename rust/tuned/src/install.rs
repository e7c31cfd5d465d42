//! "Install: an epoch and a list of 1,024 entries, a place or 255 for none. It replaces the target,
//! and T becomes G." Slots may be left with none only where nobody subscribes to them.

use plain::{Answer, Refusal, Reply, NO_PLACE, NO_SLOT, PARTITIONS, PLACES, SLOTS, TOPICS};

use crate::group::{members, Group};
use crate::heartbeat::refused;
use crate::records::store;
use crate::slots::{Slots, Words};

impl Group {
    #[inline]
    pub fn install(&mut self, epoch: i32, entries: &[u8], records: &mut [u8]) -> Reply {
        self.try_install(epoch, entries, records)
            .unwrap_or_else(refused)
    }

    fn try_install(
        &mut self,
        epoch: i32,
        entries: &[u8],
        records: &mut [u8],
    ) -> Result<Reply, Refusal> {
        // 1006: "list length not 1,024 (slot reported 65,535)"; 1004: "epoch is not G"; 1005: "T equals
        // G".
        if entries.len() != SLOTS {
            return Err(Refusal::BadTarget { slot: NO_SLOT });
        }
        if epoch != self.epoch {
            return Err(Refusal::Stale);
        }
        if self.target_epoch == self.epoch {
            return Err(Refusal::Already);
        }
        let targets = self.targets(entries)?;
        // "7 for each place whose set changed, rising, then 6".
        let changed = self.changed(&targets);
        let written = store(records, |log| {
            for place in members(changed) {
                log.target(place, &Slots::of(targets[place]));
            }
            log.target_epoch(epoch);
        })?;

        for place in members(changed) {
            self.sets[place].target = Slots::of(targets[place]);
        }
        self.target_epoch = epoch;
        Ok(Reply {
            answer: Answer::Done,
            written,
        })
    }

    /// The target of each place. 1006 again: "an entry not 255 whose place is above 31 or empty, or
    /// whose slot doesn't exist, or whose member doesn't subscribe"; "also when an existing slot has
    /// no owner while some member subscribes to its topic. The first bad slot of either sort is
    /// reported."
    fn targets(&self, entries: &[u8]) -> Result<[Words; PLACES], Refusal> {
        let subscriptions = self.subscriptions();
        let wanted = subscriptions.iter().fold(0, |all, one| all | one);
        let mut targets = [[0; TOPICS]; PLACES];
        for (topic, of_topic) in entries.chunks_exact(PARTITIONS).enumerate() {
            let count = self.topics[topic].map_or(0, |topic| usize::from(topic.count));
            let must_be_owned = if wanted >> topic & 1 == 1 { count } else { 0 };
            for (partition, &entry) in of_topic.iter().enumerate() {
                let place = usize::from(entry);
                let takes = |place: usize| subscriptions[place] >> topic & 1 == 1;
                if partition < count && place < PLACES && takes(place) {
                    targets[place][topic] |= 1 << partition;
                } else if entry != NO_PLACE || partition < must_be_owned {
                    let slot = (topic * PARTITIONS + partition) as u16;
                    return Err(Refusal::BadTarget { slot });
                }
            }
        }
        Ok(targets)
    }

    /// By place; nothing where the place is empty.
    fn subscriptions(&self) -> [u16; PLACES] {
        let mut subscriptions = [0; PLACES];
        for place in members(self.used) {
            subscriptions[place] = self.seats[place].subscription;
        }
        subscriptions
    }

    /// The places whose target changes.
    fn changed(&self, targets: &[Words; PLACES]) -> u32 {
        let mut changed = 0;
        for (place, (sets, target)) in self.sets.iter().zip(targets).enumerate() {
            changed |= u32::from(sets.target.words() != target) << place;
        }
        changed
    }
}
