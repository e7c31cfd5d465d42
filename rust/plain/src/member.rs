//! A member as the group keeps it.

use std::collections::BTreeSet;

use crate::limits::SESSION_TIMEOUT;
use crate::protocol::{Id, Member, Place, Slot};

#[derive(Clone, PartialEq, Eq)]
pub(crate) struct Membership {
    pub place: Place,
    pub id: Id,
    pub subscription: u16,
    pub timeout: u32,
    pub heard: u32,
    pub holding: Holding,
}

/// E, A, P and the tick P was last set: what steps 2 and 3 of an ordinary heartbeat may change.
#[derive(Clone, PartialEq, Eq)]
pub(crate) struct Holding {
    pub epoch: i32,
    pub assigned: BTreeSet<Slot>,
    pub revoking: BTreeSet<Slot>,
    pub revoked_at: u32,
}

impl Holding {
    /// A joiner's: "A and P are empty"; P was set "at first, and again at a rejoin, the tick of
    /// the join".
    pub fn of_joiner(epoch: i32, tick: u32) -> Holding {
        Holding {
            epoch,
            assigned: BTreeSet::new(),
            revoking: BTreeSet::new(),
            revoked_at: tick,
        }
    }

    /// "A slot in either A or P is held."
    pub fn held(&self) -> impl Iterator<Item = Slot> + '_ {
        self.assigned.iter().chain(&self.revoking).copied()
    }
}

impl Membership {
    pub fn subscribes_to(&self, topic: usize) -> bool {
        subscribes(self.subscription, topic)
    }

    /// "each member not heard for 45,000 ms or more, or with P not empty and set for its rebalance
    /// timeout or longer"; "elapsed time is the wrapped difference".
    pub fn is_overdue(&self, tick: u32) -> bool {
        let silent = tick.wrapping_sub(self.heard);
        let waiting = tick.wrapping_sub(self.holding.revoked_at);
        silent >= SESSION_TIMEOUT || (!self.holding.revoking.is_empty() && waiting >= self.timeout)
    }

    pub fn set_ticks(&mut self, tick: u32) {
        self.heard = tick;
        self.holding.revoked_at = tick;
    }

    pub fn picture(&self) -> Member {
        Member {
            id: self.id,
            epoch: self.holding.epoch,
            subscription: self.subscription,
            timeout: self.timeout,
            assigned: self.holding.assigned.iter().copied().collect(),
            revoking: self.holding.revoking.iter().copied().collect(),
            heard: self.heard,
            revoked_at: self.holding.revoked_at,
        }
    }
}

/// "a subscription (a set of the 16 topic numbers)"; topic t is 2^t.
pub(crate) fn subscribes(subscription: u16, topic: usize) -> bool {
    subscription >> topic & 1 == 1
}
