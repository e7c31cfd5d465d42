//! "A whole batch is refused .. exactly when no event would write it for the group so far, whatever
//! the ticks of both": a list of all that some event would write.
//!
//! Ticks decide nothing but 1001 and who is swept, and some ticks let any event pass the clock and
//! any members be overdue. Room is no matter either: an event may be lent all that it needs.

use std::collections::BTreeSet;

use super::record::Record;
use crate::group::Group;
use crate::limits::{LARGEST_EPOCH, LARGEST_TIMEOUT, PARTITIONS, PLACES, SLOTS, TOPICS, ZERO_ID};
use crate::member::{subscribes, Membership};
use crate::protocol::{Id, Place, Slot, Topic};

impl Group {
    pub(super) fn some_event_writes(&self, records: &[Record]) -> bool {
        self.topic_writes(records)
            || self.install_writes(records)
            || self.removal_writes(records)
            || self.join_writes(records)
            || self.ordinary_writes(records)
    }

    /// "Topic: 4 if changed, 3 if G did."
    fn topic_writes(&self, records: &[Record]) -> bool {
        let [Record::Topic { number, topic }, rest @ ..] = records else {
            return false;
        };
        let number = usize::from(*number);
        number < TOPICS
            && self.may_become(number, topic)
            // "G rises by one if this changed something and some member subscribes to the topic."
            && match self.is_subscribed(number) {
                true => self.is_raise(rest),
                false => rest.is_empty(),
            }
    }

    /// "A new number is made, or a known one's count raised", and 1007 has nothing against it.
    fn may_become(&self, number: usize, topic: &Topic) -> bool {
        let is_others = |(other, known): (usize, &Option<Topic>)| {
            other != number && known.is_some_and(|known| known.id == topic.id)
        };
        let is_more = match self.topics[number] {
            None => true,
            Some(known) => known.id == topic.id && known.count < topic.count,
        };
        is_more
            && (1..=PARTITIONS).contains(&usize::from(topic.count))
            && topic.id != ZERO_ID
            && !self.topics.iter().enumerate().any(is_others)
    }

    fn is_subscribed(&self, topic: usize) -> bool {
        let mut members = self.members.values();
        members.any(|member| subscribes(member.subscription, topic))
    }

    /// "Install: 7 for each place whose set changed, rising, then 6."
    fn install_writes(&self, records: &[Record]) -> bool {
        let [changes @ .., Record::TargetEpoch(epoch)] = records else {
            return false;
        };
        // "T becomes G", and was not G before (1005).
        if *epoch != self.epoch || self.target_epoch == self.epoch {
            return false;
        }
        let mut targets: [&BTreeSet<Slot>; PLACES] = self.targets.each_ref();
        let mut below = 0;
        for change in changes {
            let Record::Target { place, slots } = change else {
                return false;
            };
            let index = usize::from(*place);
            if index < below || !self.is_in_use(*place) || targets[index] == slots {
                return false;
            }
            targets[index] = slots;
            below = index + 1;
        }
        self.is_installed(targets)
    }

    /// Whether an install has these targets, changed ones and others: no slot is in two, and 01's 1006
    /// has nothing against any. Slots may be left over: "Journals are read without this rule."
    fn is_installed(&self, targets: [&BTreeSet<Slot>; PLACES]) -> bool {
        let mut seen = [false; SLOTS];
        for (target, name) in targets.into_iter().zip(&self.places) {
            let member = name.and_then(|id| self.members.get(&id));
            let subscription = member.map_or(0, |member| member.subscription);
            for &slot in target {
                let slot = usize::from(slot);
                let (topic, partition) = (slot / PARTITIONS, slot % PARTITIONS);
                let exists = self.topics[topic].is_some_and(|topic| partition < topic.count.into());
                if seen[slot] || !exists || !subscribes(subscription, topic) {
                    return false;
                }
                seen[slot] = true;
            }
        }
        true
    }

    /// "Leave: 8 gone, 7 empty (if it was not), 5 gone, 3 if G changed. Sweep: as leave for each
    /// place rising, one 3 at the end if G changed." A sweep may remove any members, and a leave
    /// writes as a sweep of one.
    fn removal_writes(&self, records: &[Record]) -> bool {
        let mut rest = records;
        let mut below = 0;
        while let [Record::AssignmentGone { place }, after @ ..] = rest {
            if *place < below || !self.is_in_use(*place) {
                return false;
            }
            let after = match self.has_target(*place) {
                true => after_emptied(*place, after),
                false => Some(after),
            };
            match after {
                Some([Record::MemberGone { place: gone }, after @ ..]) if gone == place => {
                    rest = after
                }
                _ => return false,
            }
            below = *place + 1;
        }
        // "At G's largest value a leave or sweep still removes and G stays."
        let removes = below > 0;
        removes
            && match self.epoch {
                LARGEST_EPOCH => rest.is_empty(),
                _ => self.is_raise(rest),
            }
    }

    /// "join: 7 (a known ID whose target was not empty; empty set), 5, 3, 8".
    fn join_writes(&self, records: &[Record]) -> bool {
        let (emptied, rest) = match records {
            [Record::Target { place, slots }, rest @ ..] if slots.is_empty() => (Some(place), rest),
            _ => (None, records),
        };
        let [Record::Member {
            place,
            id,
            timeout,
            subscription: _,
        }, raise, Record::Assignment {
            place: assigned_to,
            epoch,
            assigned,
            revoking,
        }] = rest
        else {
            return false;
        };
        let has_target = self.has_place(id, *place) && self.has_target(*place);
        *id != ZERO_ID
            && is_timeout(*timeout)
            && self.place_of(id) == Some(*place)
            && emptied == has_target.then_some(place)
            // "E becomes the new G .. A and P are empty".
            && self.is_raise(std::slice::from_ref(raise))
            && *raise == Record::GroupEpoch(*epoch)
            && assigned_to == place
            && assigned.is_empty()
            && revoking.is_empty()
    }

    fn has_place(&self, id: &Id, place: Place) -> bool {
        self.members
            .get(id)
            .is_some_and(|member| member.place == place)
    }

    /// "A known ID keeps its place", any other takes "the lowest free place", if there is one.
    fn place_of(&self, id: &Id) -> Option<Place> {
        let lowest_free = || self.places.iter().position(Option::is_none);
        match self.members.get(id) {
            Some(member) => Some(member.place),
            None => lowest_free().map(|place| place as Place),
        }
    }

    /// "Ordinary: 5 if subscription or timeout changed, 3 if G did, 8 if E, A or P did."
    fn ordinary_writes(&self, records: &[Record]) -> bool {
        let (stored, rest) = match records {
            [stored @ Record::Member { .. }, rest @ ..] => (Some(stored), rest),
            _ => (None, records),
        };
        let (raise, rest) = match rest {
            [Record::GroupEpoch(_), after @ ..] => (&rest[..1], after),
            _ => (&rest[..0], rest),
        };
        let moved = match rest {
            [] => None,
            [moved @ Record::Assignment { .. }] => Some(moved),
            _ => return false,
        };
        let (Some(Record::Member { place, .. }) | Some(Record::Assignment { place, .. })) =
            stored.or(moved)
        else {
            return false;
        };
        let Some(member) = self.membership_at(*place) else {
            return false;
        };
        self.step_1_writes(member, stored, raise) && self.steps_2_and_3_write(member, moved)
    }

    /// "A given subscription that differs is stored and G rises by one. A given timeout is stored."
    fn step_1_writes(
        &self,
        member: &Membership,
        stored: Option<&Record>,
        raise: &[Record],
    ) -> bool {
        let Some(Record::Member {
            place,
            id,
            timeout,
            subscription,
        }) = stored
        else {
            return raise.is_empty();
        };
        let has_other_subscription = *subscription != member.subscription;
        *place == member.place
            && *id == member.id
            && is_timeout(*timeout)
            && (has_other_subscription || *timeout != member.timeout)
            && match has_other_subscription {
                true => self.is_raise(raise),
                false => raise.is_empty(),
            }
    }

    /// Without a list a member keeps its P and all else. Any member may give an empty list, and so
    /// free its P; then step 3 leaves one thing alone.
    fn steps_2_and_3_write(&self, member: &Membership, moved: Option<&Record>) -> bool {
        let holding = &member.holding;
        let before = Record::Assignment {
            place: member.place,
            epoch: holding.epoch,
            assigned: holding.assigned.clone(),
            revoking: holding.revoking.clone(),
        };
        let after = self.step_3(member);
        match moved {
            Some(moved) => *moved == after && *moved != before,
            None => !holding.revoking.is_empty() || after == before,
        }
    }

    /// Step 3 as its record, "with M the target slots of this member" and P freed.
    fn step_3(&self, member: &Membership) -> Record {
        let (place, now) = (member.place, &member.holding);
        let target = &self.targets[usize::from(place)];
        let (epoch, assigned, revoking) = if now.assigned.is_subset(target) {
            // "Otherwise E becomes the larger of E and T, and every slot of M that nobody holds
            // enters A": what another holds stays outside, and A is within M.
            let is_anothers =
                |slot: &Slot| self.holders[usize::from(*slot)].is_some_and(|other| other != place);
            let assigned = target.iter().copied().filter(|slot| !is_anothers(slot));
            let epoch = now.epoch.max(self.target_epoch);
            (epoch, assigned.collect(), BTreeSet::new())
        } else {
            // "If A has slots outside M, those move to P, and A keeps the rest; E stays."
            let assigned = now.assigned.intersection(target).copied().collect();
            let revoking = now.assigned.difference(target).copied().collect();
            (now.epoch, assigned, revoking)
        };
        Record::Assignment {
            place,
            epoch,
            assigned,
            revoking,
        }
    }

    /// Just a record 3 with G and one more, which is an epoch.
    fn is_raise(&self, records: &[Record]) -> bool {
        match records {
            [Record::GroupEpoch(epoch)] => self.epoch.checked_add(1) == Some(*epoch),
            _ => false,
        }
    }

    fn is_in_use(&self, place: Place) -> bool {
        self.membership_at(place).is_some()
    }
}

/// What follows "7 empty" of the place; None where it does not stand there.
fn after_emptied(place: Place, records: &[Record]) -> Option<&[Record]> {
    match records {
        [Record::Target { place: of, slots }, after @ ..] if *of == place && slots.is_empty() => {
            Some(after)
        }
        _ => None,
    }
}

/// "1 to 1,800,000".
fn is_timeout(timeout: u32) -> bool {
    (1..=LARGEST_TIMEOUT as u32).contains(&timeout)
}
