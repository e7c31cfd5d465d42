//! The group: what 01 says it has, how it is made and looked at, and the changes that several
//! events share.

use std::collections::HashMap;

use plain::{Id, Member, Refusal, Topic, CLOCK_WENT_BACK, PLACES, SESSION_TIMEOUT, SLOTS, TOPICS};

use crate::slots::{remove, Slots, Words};

#[derive(Clone, PartialEq, Eq)]
pub struct Group {
    /// G.
    pub(crate) epoch: i32,
    /// T.
    pub(crate) target_epoch: i32,
    pub(crate) last_tick: u32,
    pub(crate) topics: [Option<Topic>; TOPICS],
    /// The place of each member, by the `key` of its ID.
    pub(crate) places: HashMap<u128, u8>,
    /// Bit k: a member is at place k.
    pub(crate) used: u32,
    /// By place. What is at a free place doesn't count.
    pub(crate) seats: [Seat; PLACES],
    /// By place; all empty at a free one.
    pub(crate) sets: [Sets; PLACES],
    /// The slots that are in A or in P of some member.
    pub(crate) held: Words,
}

/// A member without its sets, so that a sweep finds all it reads close together.
#[derive(Clone, Copy, PartialEq, Eq)]
pub(crate) struct Seat {
    pub id: Id,
    pub epoch: i32,
    pub subscription: u16,
    pub timeout: u32,
    pub heard: u32,
    pub revoked_at: u32,
}

/// 01's A, P and M of a member.
#[derive(Clone, Copy, PartialEq, Eq)]
pub(crate) struct Sets {
    pub assigned: Slots,
    pub revoking: Slots,
    pub target: Slots,
}

const NO_SEAT: Seat = Seat {
    id: [0; 16],
    epoch: 0,
    subscription: 0,
    timeout: 0,
    heard: 0,
    revoked_at: 0,
};

const NO_SETS: Sets = Sets {
    assigned: Slots::EMPTY,
    revoking: Slots::EMPTY,
    target: Slots::EMPTY,
};

impl Group {
    /// "A fresh group has no topics or members, G = T = 0, an empty target, and the tick it was
    /// made with."
    pub fn new(tick: u32) -> Group {
        Group::at_epochs(tick, 0, 0)
    }

    /// A fresh group with other epochs, for tests of their end.
    pub fn at_epochs(tick: u32, epoch: i32, target_epoch: i32) -> Group {
        Group {
            epoch,
            target_epoch,
            last_tick: tick,
            topics: [None; TOPICS],
            places: HashMap::with_capacity(PLACES),
            used: 0,
            seats: [NO_SEAT; PLACES],
            sets: [NO_SETS; PLACES],
            held: [0; TOPICS],
        }
    }

    pub fn epoch(&self) -> i32 {
        self.epoch
    }

    pub fn target_epoch(&self) -> i32 {
        self.target_epoch
    }

    pub fn last_tick(&self) -> u32 {
        self.last_tick
    }

    /// None where there is no such topic, and above 15.
    pub fn topic_at(&self, number: u8) -> Option<Topic> {
        self.topics.get(usize::from(number)).copied().flatten()
    }

    /// None where the place is free, and above 31.
    pub fn member_at(&self, place: u8) -> Option<Member> {
        let place = usize::from(place);
        if place >= PLACES || self.used >> place & 1 == 0 {
            return None;
        }
        let (seat, sets) = (&self.seats[place], &self.sets[place]);
        Some(Member {
            id: seat.id,
            epoch: seat.epoch,
            subscription: seat.subscription,
            timeout: seat.timeout,
            assigned: list(&sets.assigned),
            revoking: list(&sets.revoking),
            heard: seat.heard,
            revoked_at: seat.revoked_at,
        })
    }

    /// None where the slot has no target, and above 1,023.
    pub fn target_of(&self, slot: u16) -> Option<u8> {
        if usize::from(slot) >= SLOTS {
            return None;
        }
        let mut places = members(self.used);
        let place = places.find(|&place| self.sets[place].target.contains(slot));
        place.map(|place| place as u8)
    }
}

impl Group {
    /// 1001: "wrapped (tick - last tick) is 2^31 or more".
    #[inline]
    pub(crate) fn check_clock(&self, tick: u32) -> Result<(), Refusal> {
        if tick.wrapping_sub(self.last_tick) >= CLOCK_WENT_BACK {
            return Err(Refusal::Clock);
        }
        Ok(())
    }

    /// 25: "ordinary or leave, ID unknown".
    #[inline]
    pub(crate) fn place_of(&self, id: &Id) -> Result<usize, Refusal> {
        let place = self.places.get(&key(id)).ok_or(Refusal::UnknownMemberId)?;
        Ok(usize::from(*place))
    }

    /// G and one more; 1002 where that "would raise G past 2,147,483,647".
    #[inline]
    pub(crate) fn raised_epoch(&self) -> Result<i32, Refusal> {
        self.epoch.checked_add(1).ok_or(Refusal::EpochEnd)
    }

    /// "At G's largest value a leave or sweep still removes and G stays."
    pub(crate) fn epoch_after_removal(&self) -> i32 {
        self.epoch.saturating_add(1)
    }

    /// "each member not heard for 45,000 ms or more, or with P not empty and set for its rebalance
    /// timeout or longer"; "elapsed time is the wrapped difference".
    #[inline]
    pub(crate) fn is_overdue(&self, place: usize, tick: u32) -> bool {
        let seat = &self.seats[place];
        let (silent, waiting) = (
            tick.wrapping_sub(seat.heard),
            tick.wrapping_sub(seat.revoked_at),
        );
        silent >= SESSION_TIMEOUT
            || waiting >= seat.timeout && !self.sets[place].revoking.is_empty()
    }

    /// The place's A, P and target become empty.
    #[inline]
    pub(crate) fn vacate(&mut self, place: usize) {
        let sets = &mut self.sets[place];
        if [&sets.assigned, &sets.revoking, &sets.target]
            .iter()
            .all(|set| set.is_empty())
        {
            return;
        }
        remove(&mut self.held, &sets.assigned);
        remove(&mut self.held, &sets.revoking);
        *sets = NO_SETS;
    }

    /// The member at the place goes; "a place freed is used again".
    pub(crate) fn remove(&mut self, place: usize) {
        self.places.remove(&key(&self.seats[place].id));
        self.used &= !(1 << place);
        self.vacate(place);
    }
}

/// An ID as one number, which is hashed quicker than sixteen bytes and their length.
#[inline]
pub(crate) fn key(id: &Id) -> u128 {
    u128::from_ne_bytes(*id)
}

/// The places of a mask, rising.
#[inline]
pub(crate) fn members(mut mask: u32) -> impl Iterator<Item = usize> {
    std::iter::from_fn(move || {
        let place = mask.trailing_zeros() as usize;
        mask &= mask.checked_sub(1)?;
        Some(place)
    })
}

fn list(set: &Slots) -> Vec<u16> {
    let mut list = Vec::with_capacity(set.count());
    set.for_each(|slot| list.push(slot));
    list
}
