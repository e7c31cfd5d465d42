//! The functions of the static library and the structs that cross to them, declared as the Rattle
//! crates `pankvisolo`, `events` and `group` have them. Nothing checks that they are equal but the
//! tests of the layout. The C declarations of the same are in include/pankvisolo.h.
//!
//! This is the only module of the workspace with `unsafe` in it; its functions are safe.

pub(crate) const TOPICS: usize = 16;
pub(crate) const PLACES: usize = 32;
pub(crate) const SLOTS: usize = 1_024;
/// In `target` and `holder`: no place.
pub(crate) const NO_PLACE: u8 = 255;

/// Members stand in columns by place, their IDs as `ids` says. Three columns are by slot: the place
/// that is to have it, the place that has it, and whether that one is giving it back.
#[derive(Clone)]
#[cfg_attr(feature = "testing", derive(PartialEq))]
#[repr(C)]
pub(crate) struct Group {
    pub epoch: u32,
    pub target_epoch: u32,
    pub tick: u32,
    pub member_ids: [[u32; PLACES]; 4],
    pub member_epochs: [u32; PLACES],
    pub subscriptions: [u32; PLACES],
    pub timeouts: [u32; PLACES],
    pub heard: [u32; PLACES],
    pub revoked_at: [u32; PLACES],
    pub topic_ids: [[u8; 16]; TOPICS],
    /// With count 0 there is no topic of the number.
    pub topic_counts: [u8; TOPICS],
    pub target: [u8; SLOTS],
    pub holder: [u8; SLOTS],
    pub waiting: [bool; SLOTS],
}

/// A heartbeat, but for its list of owned slots, which counts only where `has_list`.
#[repr(C)]
pub(crate) struct Request {
    pub id: [u8; 16],
    pub epoch: i32,
    pub tick: u32,
    pub timeout: i32,
    pub has_subscription: bool,
    pub subscription: u16,
    pub has_list: bool,
}

/// The ID of a topic.
#[repr(C)]
pub(crate) struct Id {
    pub bytes: [u8; 16],
}

/// An answer as numbers: 01's number, 0 where the event was accepted; the heartbeat interval; the
/// epoch, -1 for a leave; how many slots the answer carries or members a sweep removed; the slot that
/// is reported, or 65,535; how many bytes of records were written.
#[repr(C)]
pub(crate) struct Reply {
    pub number: u32,
    pub interval: u32,
    pub epoch: i64,
    pub count: u32,
    pub slot: u16,
    pub written: usize,
}

/// `Reading::verdict` and `Extent::verdict`.
pub(crate) const WHOLE: u32 = 0;
pub(crate) const TORN: u32 = 1;
pub(crate) const REFUSED: u32 = 2;
/// An extent's alone.
pub(crate) const BATCH: u32 = 3;

/// What a journal was found to be, and where its good part ends.
#[repr(C)]
pub(crate) struct Reading {
    pub verdict: u32,
    pub end: usize,
}

/// What stands where a length would, and where the records of a batch start and end.
#[repr(C)]
pub(crate) struct Extent {
    pub verdict: u32,
    pub start: usize,
    pub end: usize,
}

/// A group or an array crosses as a pointer, a slice as a pointer and then a length.
mod exported {
    use super::{Extent, Group, Id, Reading, Reply, Request, SLOTS};

    extern "C" {
        pub fn pankvisolo_fresh(tick: u32) -> Group;

        pub fn pankvisolo_heartbeat(
            group: *mut Group,
            request: *const Request,
            owned: *const u16,
            owned_length: usize,
            records: *mut u8,
            records_length: usize,
            list: *mut u16,
            list_length: usize,
        ) -> Reply;

        pub fn pankvisolo_sweep(
            group: *mut Group,
            tick: u32,
            records: *mut u8,
            records_length: usize,
        ) -> Reply;

        pub fn pankvisolo_set_topic(
            group: *mut Group,
            number: u32,
            id: Id,
            count: u32,
            records: *mut u8,
            records_length: usize,
        ) -> Reply;

        pub fn pankvisolo_install(
            group: *mut Group,
            epoch: i32,
            entries: *const u8,
            entries_length: usize,
            records: *mut u8,
            records_length: usize,
        ) -> Reply;

        pub fn pankvisolo_range_target(group: *const Group, entries: *mut [u8; SLOTS]);

        pub fn pankvisolo_read_journal(
            group: *mut Group,
            tick: u32,
            bytes: *const u8,
            bytes_length: usize,
        ) -> Reading;

        pub fn pankvisolo_next_batch(bytes: *const u8, bytes_length: usize, at: usize) -> Extent;

        pub fn pankvisolo_read_batch(
            group: *mut Group,
            tick: u32,
            batch: *const u8,
            batch_length: usize,
        ) -> bool;

        pub fn pankvisolo_frame(
            records: *const u8,
            records_length: usize,
            journal: *mut u8,
            journal_length: usize,
        ) -> usize;

        #[cfg(test)]
        pub fn pankvisolo_put_heading(journal: *mut u8, journal_length: usize) -> usize;
    }
}

pub(crate) fn fresh(tick: u32) -> Group {
    // SAFETY: the function takes every number, and nothing by reference. What comes back is a value of
    // Rattle's type, laid out as declared here (see tests), with bools that are 0 or 1 as Rust's are.
    unsafe { exported::pankvisolo_fresh(tick) }
}

#[inline]
pub(crate) fn heartbeat(
    group: &mut Group,
    request: &Request,
    owned: &[u16],
    records: &mut [u8],
    list: &mut [u16],
) -> Reply {
    // SAFETY: the function has no `requires`, so it takes every value. It reads and writes the group,
    // reads the request and `owned`, and reads and writes `records` and `list` within the lengths that go with them, and
    // keeps none of them; all are lent for the call, so each pointer is good for its length, an empty
    // slice's too, and the three that are written overlap with nothing. It leaves a group that is a
    // value of Rattle's type, as for `fresh`.
    unsafe {
        exported::pankvisolo_heartbeat(
            group,
            request,
            owned.as_ptr(),
            owned.len(),
            records.as_mut_ptr(),
            records.len(),
            list.as_mut_ptr(),
            list.len(),
        )
    }
}

#[inline]
pub(crate) fn sweep(group: &mut Group, tick: u32, records: &mut [u8]) -> Reply {
    // SAFETY: as for `heartbeat`, with the group and `records` lent.
    unsafe { exported::pankvisolo_sweep(group, tick, records.as_mut_ptr(), records.len()) }
}

#[inline]
pub(crate) fn set_topic(
    group: &mut Group,
    number: u32,
    id: Id,
    count: u32,
    records: &mut [u8],
) -> Reply {
    // SAFETY: as for `heartbeat`, with the group and `records` lent.
    unsafe {
        exported::pankvisolo_set_topic(
            group,
            number,
            id,
            count,
            records.as_mut_ptr(),
            records.len(),
        )
    }
}

#[inline]
pub(crate) fn install(group: &mut Group, epoch: i32, entries: &[u8], records: &mut [u8]) -> Reply {
    // SAFETY: as for `heartbeat`, with `entries` read, and the group and `records` written.
    unsafe {
        exported::pankvisolo_install(
            group,
            epoch,
            entries.as_ptr(),
            entries.len(),
            records.as_mut_ptr(),
            records.len(),
        )
    }
}

pub(crate) fn range_target(group: &Group) -> [u8; SLOTS] {
    let mut entries = [NO_PLACE; SLOTS];
    // SAFETY: as for `heartbeat`, with the group read and `entries` written.
    unsafe { exported::pankvisolo_range_target(group, &mut entries) };
    entries
}

/// The group is written over, whatever it was.
pub(crate) fn read_journal(group: &mut Group, tick: u32, bytes: &[u8]) -> Reading {
    // SAFETY: as for `heartbeat`, with `bytes` read and the group written.
    unsafe { exported::pankvisolo_read_journal(group, tick, bytes.as_ptr(), bytes.len()) }
}

pub(crate) fn next_batch(bytes: &[u8], at: usize) -> Extent {
    // SAFETY: as for `heartbeat`, with `bytes` read; the function takes every `at`.
    unsafe { exported::pankvisolo_next_batch(bytes.as_ptr(), bytes.len(), at) }
}

/// False: refused, and the group is as it was.
pub(crate) fn read_batch(group: &mut Group, tick: u32, batch: &[u8]) -> bool {
    // SAFETY: as for `heartbeat`, with `batch` read and the group written. Rattle's bool is 0 or 1.
    unsafe { exported::pankvisolo_read_batch(group, tick, batch.as_ptr(), batch.len()) }
}

/// The bytes written; 0: nothing was.
pub(crate) fn frame(records: &[u8], journal: &mut [u8]) -> usize {
    // SAFETY: as for `heartbeat`, with `records` read and `journal` written.
    unsafe {
        exported::pankvisolo_frame(
            records.as_ptr(),
            records.len(),
            journal.as_mut_ptr(),
            journal.len(),
        )
    }
}

/// The bytes written; 0: nothing was.
#[cfg(test)]
pub(crate) fn put_heading(journal: &mut [u8]) -> usize {
    // SAFETY: as for `heartbeat`, with `journal` written.
    unsafe { exported::pankvisolo_put_heading(journal.as_mut_ptr(), journal.len()) }
}
