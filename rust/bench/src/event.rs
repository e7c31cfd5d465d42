//! Events, the same for all sides.

pub enum Event {
    Beat(Beat),
    Sweep {
        tick: u32,
    },
    Topic {
        number: u8,
        count: u32,
    },
    Install {
        epoch: i32,
        entries: Vec<u8>,
    },
    /// No event of the group: it is asked for its range target.
    RangeTarget,
}

/// A heartbeat that gives its list of owned slots.
pub struct Beat {
    pub id: [u8; 16],
    pub epoch: i32,
    pub tick: u32,
    pub timeout: i32,
    pub subscription: Option<u16>,
    pub owned: Vec<u16>,
}
