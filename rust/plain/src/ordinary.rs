//! The ordinary heartbeat, "with M the target slots of this member".

use std::collections::BTreeSet;

use crate::form::Ordinary;
use crate::group::Group;
use crate::member::{Holding, Membership};
use crate::protocol::{Id, Reply, Slot};
use crate::records::Records;
use crate::refusal::Refusal;

/// All that an accepted ordinary heartbeat leaves, decided before anything is changed.
struct Outcome {
    subscription: u16,
    timeout: u32,
    group_epoch: i32,
    /// None where A, P and E stay.
    holding: Option<Holding>,
}

impl Group {
    pub(crate) fn ordinary(
        &mut self,
        id: Id,
        tick: u32,
        request: &Ordinary,
        records: &mut [u8],
        assignment: &mut [u16],
    ) -> Result<Reply, Refusal> {
        // 25: "ordinary or leave, ID unknown".
        let member = self.members.get(&id).ok_or(Refusal::UnknownMemberId)?;
        self.check_ordinary(member, request)?;
        let outcome = self.outcome(member, request, tick)?;

        let holding = outcome.holding.as_ref().unwrap_or(&member.holding);
        let (epoch, count) = (holding.epoch, holding.assigned.len());
        // 1003: "the records don't fit the lent buffer, or A doesn't fit the lent list".
        let told = assignment.get_mut(..count).ok_or(Refusal::Room)?;
        let written = self.ordinary_records(member, &outcome).store(records)?;

        for (entry, &slot) in told.iter_mut().zip(&holding.assigned) {
            *entry = slot;
        }
        self.settle(&id, tick, outcome);
        Ok(Reply::assignment(epoch, count, written))
    }

    fn check_ordinary(&self, member: &Membership, request: &Ordinary) -> Result<(), Refusal> {
        // 110: "ordinary, epoch is not E".
        if request.epoch != member.holding.epoch {
            return Err(Refusal::FencedMemberEpoch);
        }
        // 42 again: "ordinary, a listed slot is in neither A nor P".
        let is_held = |&slot: &Slot| self.holders[usize::from(slot)] == Some(member.place);
        if !request.owned.unwrap_or_default().iter().all(is_held) {
            return Err(Refusal::InvalidRequest);
        }
        Ok(())
    }

    /// "1. A given subscription that differs is stored and G rises by one. A given timeout is
    /// stored." Steps 2 and 3 are `advanced`.
    fn outcome(
        &self,
        member: &Membership,
        request: &Ordinary,
        tick: u32,
    ) -> Result<Outcome, Refusal> {
        let subscription = request.subscription.unwrap_or(member.subscription);
        let group_epoch = if subscription != member.subscription {
            self.raised_epoch()?
        } else {
            self.epoch
        };
        Ok(Outcome {
            subscription,
            timeout: request.timeout.unwrap_or(member.timeout),
            group_epoch,
            holding: self.advanced(member, request.owned, tick),
        })
    }

    /// E, A and P after steps 2 and 3; None where they stay.
    fn advanced(&self, member: &Membership, owned: Option<&[Slot]>, tick: u32) -> Option<Holding> {
        let now = &member.holding;
        // "2. If P is not empty: when a list is given and has no slot of P, all of P is freed and
        // step 3 follows. Otherwise A, P and E stay."
        let waits = !now.revoking.is_empty();
        if waits && !owned.is_some_and(|list| has_none_of(list, &now.revoking)) {
            return None;
        }
        // "3. (P empty.) If A has slots outside M, those move to P .. Otherwise E becomes .."
        let target = &self.targets[usize::from(member.place)];
        if now.assigned.is_subset(target) {
            self.caught_up(now, target)
        } else {
            Some(cut_back(now, target, tick))
        }
    }

    /// "E becomes the larger of E and T, and every slot of M that nobody holds enters A." What step
    /// 2 freed, all of P, is held by nobody. None where nothing changes.
    fn caught_up(&self, now: &Holding, target: &BTreeSet<Slot>) -> Option<Holding> {
        let is_free =
            |slot: &Slot| self.holders[usize::from(*slot)].is_none() || now.revoking.contains(slot);
        let entering: Vec<Slot> = target.iter().copied().filter(is_free).collect();
        let epoch = now.epoch.max(self.target_epoch);
        if now.revoking.is_empty() && epoch == now.epoch && entering.is_empty() {
            return None;
        }
        let mut assigned = now.assigned.clone();
        assigned.extend(entering);
        Some(Holding {
            epoch,
            assigned,
            revoking: BTreeSet::new(),
            revoked_at: now.revoked_at,
        })
    }

    /// "Ordinary: 5 if subscription or timeout changed, 3 if G did, 8 if E, A or P did."
    fn ordinary_records(&self, member: &Membership, after: &Outcome) -> Records {
        let mut records = Records::new();
        let (timeout, subscription) = (after.timeout, after.subscription);
        if (timeout, subscription) != (member.timeout, member.subscription) {
            records.member(member.place, &member.id, timeout, subscription);
        }
        if after.group_epoch != self.epoch {
            records.group_epoch(after.group_epoch);
        }
        if let Some(holding) = &after.holding {
            records.assignment(member.place, holding);
        }
        records
    }

    fn settle(&mut self, id: &Id, tick: u32, outcome: Outcome) {
        self.epoch = outcome.group_epoch;
        // "Accepted heartbeats and sweeps set the group's last tick."
        self.last_tick = tick;
        let Some(member) = self.members.get_mut(id) else {
            return;
        };
        member.subscription = outcome.subscription;
        member.timeout = outcome.timeout;
        // "Accepted heartbeats set the last-heard tick."
        member.heard = tick;
        if let Some(holding) = outcome.holding {
            for slot in member.holding.held() {
                self.holders[usize::from(slot)] = None;
            }
            for slot in holding.held() {
                self.holders[usize::from(slot)] = Some(member.place);
            }
            member.holding = holding;
        }
    }
}

/// "If A has slots outside M, those move to P, and A keeps the rest; E stays."
fn cut_back(now: &Holding, target: &BTreeSet<Slot>, tick: u32) -> Holding {
    Holding {
        epoch: now.epoch,
        assigned: &now.assigned & target,
        revoking: &now.assigned - target,
        revoked_at: tick,
    }
}

fn has_none_of(list: &[Slot], slots: &BTreeSet<Slot>) -> bool {
    !list.iter().any(|slot| slots.contains(slot))
}
