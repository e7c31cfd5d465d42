//! The group.

use crate::answers;
use crate::ffi;
use crate::ids;
use crate::protocol::{Heartbeat, Id, Member, Reply, Topic};

/// A consumer group: its topics, its members, who holds which slot and who is to. Partition p of
/// topic t is slot 64t + p.
///
/// It is one plain value of some 4,500 bytes and has nothing on the heap. An event is lent it and
/// changes it where it stands.
///
/// With the feature `testing` two groups are equal where every field of the library's struct is,
/// those too that no function here shows, such as when a place that is free was last heard.
#[derive(Clone)]
#[cfg_attr(feature = "testing", derive(PartialEq))]
pub struct Group {
    pub(crate) value: ffi::Group,
}

/// Events.
impl Group {
    /// A group with no topics and no members, made at a tick.
    pub fn new(tick: u32) -> Group {
        Group {
            value: ffi::fresh(tick),
        }
    }

    /// A fresh group with other epochs, for tests of their end, which no test reaches by events.
    ///
    /// # Panics
    ///
    /// Where one of the epochs is negative: no group has such an epoch.
    #[cfg(feature = "testing")]
    pub fn at_epochs(tick: u32, epoch: i32, target_epoch: i32) -> Group {
        let stored = |epoch| u32::try_from(epoch).expect("a group's epoch is never negative");
        let mut group = Group::new(tick);
        group.value.epoch = stored(epoch);
        group.value.target_epoch = stored(target_epoch);
        group
    }

    /// A member joins, leaves or says that it is there. The slots of the answer go to `assignment`.
    #[inline]
    pub fn heartbeat(
        &mut self,
        request: &Heartbeat,
        records: &mut [u8],
        assignment: &mut [u16],
    ) -> Reply {
        let sent = ffi::Request {
            id: request.id,
            epoch: request.epoch,
            tick: request.tick,
            timeout: request.timeout,
            has_subscription: request.subscription.is_some(),
            subscription: request.subscription.unwrap_or(0),
            has_list: request.owned.is_some(),
        };
        let owned = request.owned.unwrap_or(&[]);
        let reply = ffi::heartbeat(&mut self.value, &sent, owned, records, assignment);
        answers::of_heartbeat(&reply)
    }

    /// Removes the members that weren't heard for too long, or took too long to give slots back.
    #[inline]
    pub fn sweep(&mut self, tick: u32, records: &mut [u8]) -> Reply {
        answers::of_sweep(&ffi::sweep(&mut self.value, tick, records))
    }

    /// Makes a topic, or raises its number of partitions.
    #[inline]
    pub fn topic(&mut self, number: u32, id: Id, count: u32, records: &mut [u8]) -> Reply {
        let id = ffi::Id { bytes: id };
        answers::of_change(&ffi::set_topic(&mut self.value, number, id, count, records))
    }

    /// Sets who is to have each slot: an entry for each of the 1,024, a place or 255 for nobody.
    ///
    /// A slot that exists and to whose topic some member subscribes goes to such a member, and every
    /// other slot to nobody; the first for which that isn't so is refused
    /// ([`BadTarget`](crate::Refusal::BadTarget)). Where the host has no assignor of its own,
    /// [`range_target`](Group::range_target) has the entries.
    #[inline]
    pub fn install(&mut self, epoch: i32, entries: &[u8], records: &mut [u8]) -> Reply {
        answers::of_change(&ffi::install(&mut self.value, epoch, entries, records))
    }
}

/// The range assignor.
impl Group {
    /// A target for the group as it is, for a host that has no assignor of its own: the entries of an
    /// [`install`](Group::install), each a place or 255 for nobody. Nothing of the group changes.
    ///
    /// Of each topic the members that subscribe to it are taken in rising order of ID bytes; of n
    /// partitions over k members the first n mod k get one more than the rest, each a run of
    /// neighbours, in that order. With k = 0 none are given.
    ///
    /// An install of it for the group's epoch is accepted whenever the target epoch is below the
    /// group's and there is room for the records; 4,096 bytes always are. It depends on the topics
    /// and on the members' subscriptions and IDs alone, not on who holds what. So a host calls it, and
    /// installs what it got, after each answer with which the group's epoch rose above the target's,
    /// and after a journal is read, where the target's is below.
    ///
    /// ```
    /// use pankvisolo::{Answer, Group, Heartbeat};
    ///
    /// let (mut records, mut assignment) = ([0; 4096], [0; 1024]);
    /// let mut group = Group::new(1_000);
    /// group.topic(0, [0x11; 16], 3, &mut records);
    /// for id in [[0xBB; 16], [0xAA; 16]] {
    ///     let join = Heartbeat {
    ///         id,
    ///         epoch: 0,
    ///         tick: 1_000,
    ///         timeout: 300,
    ///         subscription: Some(1),
    ///         owned: Some(&[]),
    ///     };
    ///     group.heartbeat(&join, &mut records, &mut assignment);
    /// }
    /// // The ID of the member at place 1 comes first, so it gets one more.
    /// let target = group.range_target();
    /// assert_eq!(target[..4], [1, 1, 0, 255]);
    /// assert!(group.target_epoch() < group.epoch());
    /// let reply = group.install(group.epoch(), &target, &mut records);
    /// assert_eq!(reply.answer, Answer::Done);
    /// ```
    pub fn range_target(&self) -> [u8; 1024] {
        ffi::range_target(&self.value)
    }
}

/// What a group has.
impl Group {
    /// 01's G.
    pub fn epoch(&self) -> i32 {
        signed(self.value.epoch)
    }

    /// 01's T.
    pub fn target_epoch(&self) -> i32 {
        signed(self.value.target_epoch)
    }

    /// The tick of the last event that had one and was accepted, or the one it was made at.
    pub fn last_tick(&self) -> u32 {
        self.value.tick
    }

    /// None where there is no such topic, and above 15.
    pub fn topic_at(&self, number: u8) -> Option<Topic> {
        let number = usize::from(number);
        let count = *self.value.topic_counts.get(number)?;
        (count > 0).then_some(Topic {
            id: self.value.topic_ids[number],
            count,
        })
    }

    /// None where the place is free, and above 31.
    pub fn member_at(&self, place: u8) -> Option<Member> {
        let at = usize::from(place);
        if at >= ffi::PLACES {
            return None;
        }
        let group = &self.value;
        Some(Member {
            id: ids::of(group.member_ids.each_ref().map(|column| column[at]))?,
            epoch: signed(group.member_epochs[at]),
            subscription: subscription(group.subscriptions[at]),
            timeout: group.timeouts[at],
            assigned: self.held(place, false),
            revoking: self.held(place, true),
            heard: group.heard[at],
            revoked_at: group.revoked_at[at],
        })
    }

    /// None where the slot has no target, and above 1,023.
    pub fn target_of(&self, slot: u16) -> Option<u8> {
        let place = *self.value.target.get(usize::from(slot))?;
        (place != ffi::NO_PLACE).then_some(place)
    }

    /// The slots that the place holds and is, or isn't, giving back.
    fn held(&self, place: u8, waiting: bool) -> Vec<u16> {
        let group = &self.value;
        let slots = (0..).zip(group.holder.iter().zip(&group.waiting));
        let held = slots.filter(|(_, of_slot)| *of_slot == (&place, &waiting));
        held.map(|(slot, _)| slot).collect()
    }
}

/// An epoch within the group is unsigned and at most 2,147,483,647, so nothing is lost.
fn signed(epoch: u32) -> i32 {
    epoch as i32
}

/// A subscription stands in a column of wider numbers and is one of 16 bits, so nothing is lost.
fn subscription(column: u32) -> u16 {
    column as u16
}
