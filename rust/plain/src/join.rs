//! "Join: G rises by one. An unknown ID gets a place. A known ID keeps its place."

use crate::group::Group;
use crate::member::{Holding, Membership};
use crate::protocol::{Id, Place, Reply};
use crate::records::Records;
use crate::refusal::Refusal;

impl Group {
    pub(crate) fn join(
        &mut self,
        id: Id,
        tick: u32,
        subscription: u16,
        timeout: u32,
        records: &mut [u8],
    ) -> Result<Reply, Refusal> {
        let place = self.place_for(&id)?;
        let epoch = self.raised_epoch()?;
        // "E becomes the new G, even while T is lower. A and P are empty; timeout and subscription
        // are stored."
        let member = Membership {
            place,
            id,
            subscription,
            timeout,
            heard: tick,
            holding: Holding::of_joiner(epoch, tick),
        };
        let written = self.join_records(&member, epoch).store(records)?;

        self.seat(member);
        self.epoch = epoch;
        self.last_tick = tick;
        Ok(Reply::assignment(epoch, 0, written))
    }

    /// "A joiner takes the lowest free place"; 81: "join, ID unknown, 32 members".
    fn place_for(&self, id: &Id) -> Result<Place, Refusal> {
        if let Some(member) = self.members.get(id) {
            return Ok(member.place);
        }
        let free = self.places.iter().position(Option::is_none);
        free.map(|place| place as Place)
            .ok_or(Refusal::GroupMaxSizeReached)
    }

    /// "join: 7 (a known ID whose target was not empty; empty set), 5, 3, 8". A free place has no
    /// target.
    fn join_records(&self, member: &Membership, epoch: i32) -> Records {
        let mut records = Records::new();
        if self.has_target(member.place) {
            records.no_target(member.place);
        }
        records.member(
            member.place,
            &member.id,
            member.timeout,
            member.subscription,
        );
        records.group_epoch(epoch);
        records.assignment(member.place, &member.holding);
        records
    }

    /// Puts a joiner at its place; a known ID's "A, P and target are emptied first".
    fn seat(&mut self, member: Membership) {
        let place = member.place;
        self.places[usize::from(place)] = Some(member.id);
        if let Some(before) = self.members.insert(member.id, member) {
            self.release(&before.holding);
            self.clear_target(place);
        }
    }
}
