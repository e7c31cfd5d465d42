//! The ordinary heartbeat, "with M the target slots of this member".

use plain::{Heartbeat, Refusal, Reply, LARGEST_TIMEOUT, NO_TIMEOUT, SLOTS};

use crate::group::{Group, Seat, Sets};
use crate::heartbeat::assigned;
use crate::records::{store, Records};
use crate::slots::{add, remove, Slots};

/// All that an accepted heartbeat leaves, decided before anything is changed.
struct Outcome {
    subscription: u16,
    timeout: u32,
    group_epoch: i32,
    /// None where A, P and E stay.
    holding: Option<Holding>,
}

/// What steps 2 and 3 make of E, A and P.
struct Holding {
    epoch: i32,
    assigned: Slots,
    revoking: Slots,
    revoked_at: u32,
}

impl Group {
    #[inline]
    pub(crate) fn ordinary(
        &mut self,
        request: &Heartbeat,
        records: &mut [u8],
        assignment: &mut [u16],
    ) -> Result<Reply, Refusal> {
        check_form(request)?;
        let place = self.place_of(&request.id)?;
        let (seat, sets) = (&self.seats[place], &self.sets[place]);
        // 110: "ordinary, epoch is not E".
        if request.epoch != seat.epoch {
            return Err(Refusal::FencedMemberEpoch);
        }
        // 42 again: "ordinary, a listed slot is in neither A nor P".
        if !request.owned.is_none_or(|list| holds(sets, list)) {
            return Err(Refusal::InvalidRequest);
        }
        if keeps_metadata(request, seat) && self.is_settled(seat, sets) {
            let told = room(assignment, &sets.assigned)?;
            tell_settled(told, &sets.assigned, request.owned);
            let (epoch, count) = (seat.epoch, told.len());
            self.seats[place].heard = request.tick;
            self.last_tick = request.tick;
            return Ok(assigned(epoch, count, 0));
        }
        self.change(place, request, records, assignment)
    }

    /// P is empty, A is M and E has caught up with T, so that steps 2 and 3 change nothing.
    #[inline]
    fn is_settled(&self, seat: &Seat, sets: &Sets) -> bool {
        sets.revoking.is_empty() && seat.epoch >= self.target_epoch && sets.assigned == sets.target
    }

    /// Of a heartbeat that is refused, if at all, with 1002 or 1003.
    #[inline(never)]
    fn change(
        &mut self,
        place: usize,
        request: &Heartbeat,
        records: &mut [u8],
        assignment: &mut [u16],
    ) -> Result<Reply, Refusal> {
        let outcome = self.outcome(place, request)?;
        let (epoch, slots) = match &outcome.holding {
            Some(holding) => (holding.epoch, &holding.assigned),
            None => (self.seats[place].epoch, &self.sets[place].assigned),
        };
        let told = room(assignment, slots)?;
        let written = store(records, |log| self.log(place, &outcome, log))?;

        tell(told, slots);
        let count = told.len();
        self.settle(place, request.tick, &outcome);
        Ok(assigned(epoch, count, written))
    }

    /// "1. A given subscription that differs is stored and G rises by one. A given timeout is
    /// stored." Steps 2 and 3 are `advanced`.
    #[inline]
    fn outcome(&self, place: usize, request: &Heartbeat) -> Result<Outcome, Refusal> {
        let seat = &self.seats[place];
        let subscription = request.subscription.unwrap_or(seat.subscription);
        Ok(Outcome {
            subscription,
            timeout: match request.timeout {
                NO_TIMEOUT => seat.timeout,
                given => given as u32,
            },
            group_epoch: match subscription == seat.subscription {
                true => self.epoch,
                false => self.raised_epoch()?,
            },
            holding: self.advanced(place, request),
        })
    }

    /// "Ordinary: 5 if subscription or timeout changed, 3 if G did, 8 if E, A or P did."
    #[inline]
    fn log(&self, place: usize, outcome: &Outcome, log: &mut Records) {
        let seat = &self.seats[place];
        let (timeout, subscription) = (outcome.timeout, outcome.subscription);
        if (timeout, subscription) != (seat.timeout, seat.subscription) {
            log.member(place, &seat.id, timeout, subscription);
        }
        if outcome.group_epoch != self.epoch {
            log.group_epoch(outcome.group_epoch);
        }
        if let Some(holding) = &outcome.holding {
            log.assignment(place, holding.epoch, &holding.assigned, &holding.revoking);
        }
    }

    /// E, A and P after steps 2 and 3; None where they stay.
    #[inline]
    fn advanced(&self, place: usize, request: &Heartbeat) -> Option<Holding> {
        let (seat, now) = (&self.seats[place], &self.sets[place]);
        // "2. If P is not empty: when a list is given and has no slot of P, all of P is freed and
        // step 3 follows. Otherwise A, P and E stay."
        let has_none = |list| has_none_of(list, &now.revoking);
        let frees = !now.revoking.is_empty();
        if frees && !request.owned.is_some_and(has_none) {
            return None;
        }
        // "3. (P empty.) If A has slots outside M, those move to P, and A keeps the rest; E stays."
        if !now.assigned.is_subset(&now.target) {
            return Some(Holding {
                epoch: seat.epoch,
                assigned: now.assigned.and(&now.target),
                revoking: now.assigned.minus(&now.target),
                revoked_at: request.tick,
            });
        }
        // "Otherwise E becomes the larger of E and T, and every slot of M that nobody holds enters
        // A." What step 2 freed is held by nobody.
        let epoch = seat.epoch.max(self.target_epoch);
        let (held, freed) = (&self.held, &now.revoking);
        let assigned = now.assigned.with_free(&now.target, held, freed);
        if !frees && epoch == seat.epoch && assigned.count() == now.assigned.count() {
            return None;
        }
        Some(Holding {
            epoch,
            assigned,
            revoking: Slots::EMPTY,
            revoked_at: seat.revoked_at,
        })
    }

    #[inline]
    fn settle(&mut self, place: usize, tick: u32, outcome: &Outcome) {
        self.epoch = outcome.group_epoch;
        // "Accepted heartbeats and sweeps set the group's last tick."
        self.last_tick = tick;
        let (seat, sets) = (&mut self.seats[place], &mut self.sets[place]);
        seat.subscription = outcome.subscription;
        seat.timeout = outcome.timeout;
        // "Accepted heartbeats set the last-heard tick."
        seat.heard = tick;
        if let Some(holding) = &outcome.holding {
            // What it was giving back is free.
            remove(&mut self.held, &sets.revoking);
            add(&mut self.held, &holding.assigned);
            seat.epoch = holding.epoch;
            seat.revoked_at = holding.revoked_at;
            sets.assigned = holding.assigned;
            sets.revoking = holding.revoking;
        }
    }
}

/// The first row 42: "timeout neither -1 nor 1 to 1,800,000; list not strictly rising or with a
/// number above 1,023".
#[inline]
fn check_form(request: &Heartbeat) -> Result<(), Refusal> {
    let has_timeout = matches!(request.timeout, NO_TIMEOUT | 1..=LARGEST_TIMEOUT);
    if !has_timeout || !request.owned.is_none_or(is_set_of_slots) {
        return Err(Refusal::InvalidRequest);
    }
    Ok(())
}

/// Whether each slot of the list is in A or P.
#[inline]
fn holds(sets: &Sets, list: &[u16]) -> bool {
    match sets.revoking.is_empty() {
        true => list.iter().all(|&slot| sets.assigned.contains(slot)),
        false => list
            .iter()
            .all(|&slot| sets.assigned.contains(slot) || sets.revoking.contains(slot)),
    }
}

/// All pairs are looked at and none is branched on, so that several go in one instruction.
#[inline]
fn is_set_of_slots(list: &[u16]) -> bool {
    let Some((last, others)) = list.split_last() else {
        return true;
    };
    // The last is the largest of a rising list, which has no more than there are slots.
    if list.len() > SLOTS || usize::from(*last) >= SLOTS {
        return false;
    }
    let pairs = others.iter().zip(&list[1..]);
    pairs.fold(true, |rises, (slot, next)| rises & (slot < next))
}

/// Whether what is given of subscription and timeout is what the member has.
#[inline]
fn keeps_metadata(request: &Heartbeat, seat: &Seat) -> bool {
    let timeout = request.timeout;
    (timeout == NO_TIMEOUT || timeout as u32 == seat.timeout)
        && request
            .subscription
            .is_none_or(|given| given == seat.subscription)
}

/// Where the slots are told; 1003: "A doesn't fit the lent list".
#[inline]
fn room<'a>(assignment: &'a mut [u16], slots: &Slots) -> Result<&'a mut [u16], Refusal> {
    assignment.get_mut(..slots.count()).ok_or(Refusal::Room)
}

/// A settled member holds A alone. So a list of as many slots, all of them held, is A itself.
#[inline]
fn tell_settled(told: &mut [u16], slots: &Slots, owned: Option<&[u16]>) {
    match owned {
        Some(list) if list.len() == told.len() => told.copy_from_slice(list),
        _ => tell(told, slots),
    }
}

#[inline]
fn tell(told: &mut [u16], slots: &Slots) {
    let mut entries = told.iter_mut();
    slots.for_each(|slot| {
        if let Some(entry) = entries.next() {
            *entry = slot;
        }
    });
}

#[inline]
fn has_none_of(list: &[u16], slots: &Slots) -> bool {
    !list.iter().any(|&slot| slots.contains(slot))
}
