//! "Join: G rises by one. An unknown ID gets a place. A known ID keeps its place."

use plain::{Heartbeat, Id, Refusal, Reply, LARGEST_TIMEOUT, PLACES};

use crate::group::{key, Group, Seat};
use crate::heartbeat::assigned;
use crate::records::store;
use crate::slots::Slots;

impl Group {
    pub(crate) fn join(
        &mut self,
        request: &Heartbeat,
        records: &mut [u8],
    ) -> Result<Reply, Refusal> {
        let seat = joiner(request)?;
        let place = self.place_for(&seat.id)?;
        let epoch = self.raised_epoch()?;
        // "join: 7 (a known ID whose target was not empty; empty set), 5, 3, 8". A free place has no
        // target.
        let had_target = !self.sets[place].target.is_empty();
        let written = store(records, |log| {
            if had_target {
                log.target(place, &Slots::EMPTY);
            }
            log.member(place, &seat.id, seat.timeout, seat.subscription);
            log.group_epoch(epoch);
            log.assignment(place, epoch, &Slots::EMPTY, &Slots::EMPTY);
        })?;

        let is_new = self.used >> place & 1 == 0;
        if is_new {
            self.used |= 1 << place;
            self.places.insert(key(&seat.id), place as u8);
        } else {
            // "its A, P and target are emptied first".
            self.vacate(place);
        }
        // "E becomes the new G, even while T is lower."
        self.seats[place] = Seat { epoch, ..seat };
        self.epoch = epoch;
        self.last_tick = request.tick;
        Ok(assigned(epoch, 0, written))
    }

    /// "A joiner takes the lowest free place"; 81: "join, ID unknown, 32 members".
    fn place_for(&self, id: &Id) -> Result<usize, Refusal> {
        if let Some(place) = self.places.get(&key(id)) {
            return Ok(usize::from(*place));
        }
        match self.used.trailing_ones() as usize {
            PLACES => Err(Refusal::GroupMaxSizeReached),
            place => Ok(place),
        }
    }
}

/// The member but for its epoch. 42: "timeout neither -1 nor 1 to 1,800,000; a join without
/// subscription, without timeout, or without an empty list".
fn joiner(request: &Heartbeat) -> Result<Seat, Refusal> {
    match (request.subscription, request.timeout, request.owned) {
        (Some(subscription), timeout @ 1..=LARGEST_TIMEOUT, Some([])) => Ok(Seat {
            id: request.id,
            epoch: 0,
            subscription,
            timeout: timeout as u32,
            heard: request.tick,
            // "at first, and again at a rejoin, the tick of the join".
            revoked_at: request.tick,
        }),
        _ => Err(Refusal::InvalidRequest),
    }
}
