//! What goes in and comes out: the names and shapes of the binding.

use crate::limits::HEARTBEAT_INTERVAL;
use crate::refusal::Refusal;

pub type Id = [u8; 16];

/// A slot and a place are numbers of different widths, so the compiler keeps them apart.
pub(crate) type Slot = u16;
pub(crate) type Place = u8;

/// "ID, epoch, tick, and perhaps a timeout (-1: not given), a subscription, a list of owned slots."
#[derive(Clone, Copy, PartialEq, Eq, Debug)]
pub struct Heartbeat<'a> {
    pub id: Id,
    pub epoch: i32,
    pub tick: u32,
    pub timeout: i32,
    /// Topic t is 2^t.
    pub subscription: Option<u16>,
    pub owned: Option<&'a [u16]>,
}

/// What an event returns; `written` counts the bytes of its records, 0 at a refusal.
#[derive(Clone, Copy, PartialEq, Eq, Debug)]
pub struct Reply {
    pub answer: Answer,
    pub written: usize,
}

#[derive(Clone, Copy, PartialEq, Eq, Debug)]
pub enum Answer {
    /// Join and ordinary: "carries E, the interval and all of A in rising order, written to the
    /// lent list"; A is its first `count` entries.
    Assignment {
        epoch: i32,
        interval: u32,
        count: usize,
    },
    /// "The answer's epoch is -1."
    Left,
    /// "The answer is the number removed."
    Swept(u32),
    /// Topic and install.
    Done,
    Refused(Refusal),
}

impl Reply {
    pub(crate) fn refused(refusal: Refusal) -> Reply {
        Reply {
            answer: Answer::Refused(refusal),
            written: 0,
        }
    }

    pub(crate) fn assignment(epoch: i32, count: usize, written: usize) -> Reply {
        let interval = HEARTBEAT_INTERVAL;
        let answer = Answer::Assignment {
            epoch,
            interval,
            count,
        };
        Reply { answer, written }
    }
}

#[derive(Clone, Copy, PartialEq, Eq, Debug)]
pub struct Topic {
    pub id: Id,
    pub count: u8,
}

/// A member as 01 describes it: `assigned` is A, `revoking` is P, both rising; `heard` is the tick
/// it was last heard, `revoked_at` the tick P was last set.
#[derive(Clone, PartialEq, Eq, Debug)]
pub struct Member {
    pub id: Id,
    pub epoch: i32,
    pub subscription: u16,
    pub timeout: u32,
    pub assigned: Vec<u16>,
    pub revoking: Vec<u16>,
    pub heard: u32,
    pub revoked_at: u32,
}
