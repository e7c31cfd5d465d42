//! Plain data for what goes in and comes out of either coordinator, so that all comparing is on
//! types of this crate, and a run can be kept, cut and played again.

pub type Id = [u8; 16];

/// "ID all zero".
pub const ZERO_ID: Id = [0; 16];
/// Slots there can be: "sixteen topics by sixty-four".
pub const SLOTS: usize = 1_024;
pub const PARTITIONS: usize = 64;
pub const TOPICS: u8 = 16;
pub const PLACES: u8 = 32;
/// An install's entry for no place.
pub const NO_PLACE: u8 = 255;
/// "No event needs more than 4,096 bytes."
pub const ROOMY: usize = 4_096;

#[derive(Clone, PartialEq, Eq, Debug)]
pub enum Event {
    Heartbeat(Beat),
    Sweep { tick: u32 },
    Topic { number: u32, id: Id, count: u32 },
    Install { epoch: i32, entries: Vec<u8> },
}

/// A heartbeat that owns its list.
#[derive(Clone, PartialEq, Eq, Debug)]
pub struct Beat {
    pub id: Id,
    pub epoch: i32,
    pub tick: u32,
    pub timeout: i32,
    pub subscription: Option<u16>,
    pub owned: Option<Vec<u16>>,
}

/// An event and what is lent to it. `fill` says what the lent buffer and list hold before.
#[derive(Clone, PartialEq, Eq, Debug)]
pub struct Turn {
    pub event: Event,
    pub buffer: usize,
    pub list: usize,
    pub fill: u8,
}

impl Turn {
    /// The event with all the room that any event needs.
    pub fn roomy(event: Event) -> Turn {
        Turn {
            event,
            buffer: ROOMY,
            list: SLOTS,
            fill: 0,
        }
    }
}

/// How a run's group is made.
#[derive(Clone, Copy, PartialEq, Eq, Debug)]
pub enum Start {
    Fresh {
        tick: u32,
    },
    AtEpochs {
        tick: u32,
        epoch: i32,
        target_epoch: i32,
    },
}

/// A run from a fresh group; with `rounds`, three rounds made from that seed follow.
#[derive(Clone, PartialEq, Eq, Debug)]
pub struct Run {
    pub start: Start,
    pub turns: Vec<Turn>,
    pub rounds: Option<u64>,
}

#[derive(Clone, Copy, PartialEq, Eq, Debug)]
pub struct Reply {
    pub answer: Answer,
    pub written: usize,
}

#[derive(Clone, Copy, PartialEq, Eq, Debug)]
pub enum Answer {
    Assignment {
        epoch: i32,
        interval: u32,
        count: usize,
    },
    Left,
    Swept(u32),
    Done,
    /// 01's number, and for 1006 the slot reported.
    Refused {
        number: u16,
        slot: Option<u16>,
    },
}

impl Answer {
    pub fn is_refusal(self) -> bool {
        matches!(self, Answer::Refused { .. })
    }

    /// How many slots it tells.
    pub fn told(self) -> usize {
        match self {
            Answer::Assignment { count, .. } => count,
            _ => 0,
        }
    }
}

#[derive(Clone, Copy, PartialEq, Eq, Debug)]
pub struct Topic {
    pub id: Id,
    pub count: u8,
}

#[derive(Clone, PartialEq, Eq, Debug)]
pub struct Member {
    pub id: Id,
    pub epoch: i32,
    pub subscription: u16,
    pub timeout: u32,
    pub assigned: Vec<u16>,
    pub revoking: Vec<u16>,
    pub heard: u32,
    pub revoked_at: u32,
}

impl Member {
    pub fn holds(&self, slot: u16) -> bool {
        self.assigned.contains(&slot) || self.revoking.contains(&slot)
    }

    /// A and P together, rising.
    pub fn held(&self) -> Vec<u16> {
        let mut held = [self.assigned.as_slice(), &self.revoking].concat();
        held.sort_unstable();
        held
    }

    pub fn subscribes_to(&self, topic: u8) -> bool {
        self.subscription >> topic & 1 == 1
    }
}
