//! A group takes on the records of a good batch, one by one. They have all of the event's outcome
//! but its ticks.

use std::collections::BTreeSet;
use std::mem;

use super::record::Record;
use crate::group::Group;
use crate::member::{Holding, Membership};
use crate::protocol::{Id, Place, Slot};

impl Group {
    pub(super) fn take_on(&mut self, records: Vec<Record>) {
        for record in records {
            self.take_on_one(record);
        }
    }

    fn take_on_one(&mut self, record: Record) {
        match record {
            Record::GroupEpoch(epoch) => self.epoch = epoch,
            Record::TargetEpoch(epoch) => self.target_epoch = epoch,
            Record::Topic { number, topic } => self.topics[usize::from(number)] = Some(topic),
            Record::Member {
                place,
                id,
                timeout,
                subscription,
            } => self.set_member(place, id, timeout, subscription),
            Record::MemberGone { place } => {
                if let Some(id) = self.places[usize::from(place)].take() {
                    self.members.remove(&id);
                }
            }
            Record::Target { place, slots } => self.set_target(place, slots),
            Record::Assignment {
                place,
                epoch,
                assigned,
                revoking,
            } => self.set_holding(place, epoch, assigned, revoking),
            Record::AssignmentGone { place } => {
                self.set_holding(place, 0, BTreeSet::new(), BTreeSet::new())
            }
        }
    }

    /// Whoever is new at the place holds nothing; its epoch comes with the record 8 that follows.
    fn set_member(&mut self, place: Place, id: Id, timeout: u32, subscription: u16) {
        let tick = self.last_tick;
        self.places[usize::from(place)] = Some(id);
        let member = self.members.entry(id).or_insert(Membership {
            place,
            id,
            subscription,
            timeout,
            heard: tick,
            holding: Holding::of_joiner(0, tick),
        });
        member.timeout = timeout;
        member.subscription = subscription;
    }

    /// A slot may have gone to another place by a record before this one.
    fn set_target(&mut self, place: Place, slots: BTreeSet<Slot>) {
        for &slot in &slots {
            self.target_places[usize::from(slot)] = Some(place);
        }
        let before = mem::replace(&mut self.targets[usize::from(place)], slots);
        for slot in before {
            let is_out = !self.targets[usize::from(place)].contains(&slot);
            let entry = &mut self.target_places[usize::from(slot)];
            if is_out && *entry == Some(place) {
                *entry = None;
            }
        }
    }

    fn set_holding(
        &mut self,
        place: Place,
        epoch: i32,
        assigned: BTreeSet<Slot>,
        revoking: BTreeSet<Slot>,
    ) {
        let name = self.places[usize::from(place)];
        let Some(member) = name.and_then(|id| self.members.get_mut(&id)) else {
            return;
        };
        let holding = &mut member.holding;
        for slot in holding.held() {
            self.holders[usize::from(slot)] = None;
        }
        holding.epoch = epoch;
        holding.assigned = assigned;
        holding.revoking = revoking;
        for slot in holding.held() {
            self.holders[usize::from(slot)] = Some(place);
        }
    }
}
