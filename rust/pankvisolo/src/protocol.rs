//! What goes in and comes out.

use crate::refusal::Refusal;

/// The ID of a member or a topic. All zero is nobody's.
pub type Id = [u8; 16];

/// A member's heartbeat. Epoch 0 joins, -1 leaves, above 0 is ordinary.
#[derive(Clone, Copy, PartialEq, Eq, Debug)]
pub struct Heartbeat<'a> {
    /// The member's.
    pub id: Id,
    /// The member's last answer had it, or 0 or -1.
    pub epoch: i32,
    /// The host's clock in milliseconds, which may run over.
    pub tick: u32,
    /// How long the member may take to give slots back, in milliseconds; -1: not given.
    pub timeout: i32,
    /// Topic t is 2^t. None: not given.
    pub subscription: Option<u16>,
    /// The slots that the member owns, rising. None: not given, which isn't the empty list.
    pub owned: Option<&'a [u16]>,
}

/// What an event returns.
#[derive(Clone, Copy, PartialEq, Eq, Debug)]
pub struct Reply {
    /// What to tell whoever sent the event.
    pub answer: Answer,
    /// The bytes of `records` that are to be stored; 0 at a refusal.
    pub written: usize,
}

/// An event's answer.
#[derive(Clone, Copy, PartialEq, Eq, Debug)]
pub enum Answer {
    /// To a join or an ordinary heartbeat; the member's slots stand in `assignment[..count]`.
    Assignment {
        /// The member's, for its next heartbeat.
        epoch: i32,
        /// After how many milliseconds the member is to send it.
        interval: u32,
        /// How many slots the member has.
        count: usize,
    },
    /// To a leave: the member is gone. The answer's epoch is -1.
    Left,
    /// To a sweep: how many members it removed.
    Swept(u32),
    /// To a topic or an install.
    Done,
    /// Nothing has changed, and nothing was written.
    Refused(Refusal),
}

/// A topic of a group.
#[derive(Clone, Copy, PartialEq, Eq, Debug)]
pub struct Topic {
    /// Never all zero.
    pub id: Id,
    /// Its partitions, 1 to 64.
    pub count: u8,
}

/// A member of a group.
#[derive(Clone, PartialEq, Eq, Debug)]
pub struct Member {
    /// Never all zero.
    pub id: Id,
    /// 01's E.
    pub epoch: i32,
    /// Topic t is 2^t.
    pub subscription: u16,
    /// How long it may take to give slots back, in milliseconds.
    pub timeout: u32,
    /// 01's A, rising: the slots it has.
    pub assigned: Vec<u16>,
    /// 01's P, rising: the slots it is giving back.
    pub revoking: Vec<u16>,
    /// The tick at which it was last heard.
    pub heard: u32,
    /// The tick at which slots last moved to P.
    pub revoked_at: u32,
}
