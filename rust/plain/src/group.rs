//! The group: what 01 says it has, how it is made and looked at, and the changes that several
//! events share.

use std::collections::{BTreeSet, HashMap};
use std::mem;

use crate::limits::{CLOCK_WENT_BACK, PLACES, SLOTS, TOPICS};
use crate::member::{Holding, Membership};
use crate::protocol::{Id, Member, Place, Slot, Topic};
use crate::refusal::Refusal;

#[derive(Clone, PartialEq, Eq)]
pub struct Group {
    /// G.
    pub(crate) epoch: i32,
    /// T.
    pub(crate) target_epoch: i32,
    pub(crate) last_tick: u32,
    pub(crate) topics: [Option<Topic>; TOPICS],
    pub(crate) members: HashMap<Id, Membership>,
    /// Who is at each place.
    pub(crate) places: [Option<Id>; PLACES],
    /// The target by place, and the same by slot.
    pub(crate) targets: [BTreeSet<Slot>; PLACES],
    pub(crate) target_places: Vec<Option<Place>>,
    /// Who holds each slot, in A or in P.
    pub(crate) holders: Vec<Option<Place>>,
}

impl Group {
    /// "A fresh group has no topics or members, G = T = 0, an empty target, and the tick it was
    /// made with."
    pub fn new(tick: u32) -> Group {
        Group::at_epochs(tick, 0, 0)
    }

    /// A fresh group with other epochs, for tests of their end.
    pub fn at_epochs(tick: u32, epoch: i32, target_epoch: i32) -> Group {
        Group {
            epoch,
            target_epoch,
            last_tick: tick,
            topics: [None; TOPICS],
            members: HashMap::new(),
            places: [None; PLACES],
            targets: Default::default(),
            target_places: vec![None; SLOTS],
            holders: vec![None; SLOTS],
        }
    }

    /// "every last-heard tick, the tick P was set and the last tick become the tick of reading".
    pub fn set_every_tick(&mut self, tick: u32) {
        self.last_tick = tick;
        for member in self.members.values_mut() {
            member.set_ticks(tick);
        }
    }

    /// Sets both ticks of the member at the place, for tests of who is swept.
    pub fn set_ticks_of(&mut self, place: u8, tick: u32) {
        let id = self.places.get(usize::from(place)).copied().flatten();
        if let Some(member) = id.and_then(|id| self.members.get_mut(&id)) {
            member.set_ticks(tick);
        }
    }

    pub fn epoch(&self) -> i32 {
        self.epoch
    }

    pub fn target_epoch(&self) -> i32 {
        self.target_epoch
    }

    pub fn last_tick(&self) -> u32 {
        self.last_tick
    }

    /// None where there is no such topic, and above 15.
    pub fn topic_at(&self, number: u8) -> Option<Topic> {
        self.topics.get(usize::from(number)).copied().flatten()
    }

    /// None where the place is free, and above 31.
    pub fn member_at(&self, place: u8) -> Option<Member> {
        self.membership_at(place).map(Membership::picture)
    }

    /// None where the slot has no target, and above 1,023.
    pub fn target_of(&self, slot: u16) -> Option<u8> {
        self.target_places.get(usize::from(slot)).copied().flatten()
    }
}

impl Group {
    pub(crate) fn membership_at(&self, place: Place) -> Option<&Membership> {
        let id = self.places.get(usize::from(place))?.as_ref()?;
        self.members.get(id)
    }

    /// 1001: "wrapped (tick - last tick) is 2^31 or more".
    pub(crate) fn check_clock(&self, tick: u32) -> Result<(), Refusal> {
        if tick.wrapping_sub(self.last_tick) >= CLOCK_WENT_BACK {
            return Err(Refusal::Clock);
        }
        Ok(())
    }

    /// G and one more; 1002 where that "would raise G past 2,147,483,647".
    pub(crate) fn raised_epoch(&self) -> Result<i32, Refusal> {
        self.epoch.checked_add(1).ok_or(Refusal::EpochEnd)
    }

    /// "At G's largest value a leave or sweep still removes and G stays."
    pub(crate) fn epoch_after_removal(&self) -> i32 {
        self.epoch.saturating_add(1)
    }

    pub(crate) fn has_target(&self, place: Place) -> bool {
        !self.targets[usize::from(place)].is_empty()
    }

    /// The place's "target entries become none".
    pub(crate) fn clear_target(&mut self, place: Place) {
        for slot in mem::take(&mut self.targets[usize::from(place)]) {
            self.target_places[usize::from(slot)] = None;
        }
    }

    /// Nobody holds what `holding` held.
    pub(crate) fn release(&mut self, holding: &Holding) {
        for slot in holding.held() {
            self.holders[usize::from(slot)] = None;
        }
    }
}
