//! The records of 01. They are collected here and copied to the lent buffer once all is decided.

use std::collections::BTreeSet;

use crate::member::{Holding, Membership};
use crate::protocol::{Id, Place, Slot, Topic};
use crate::refusal::Refusal;

pub(crate) const GROUP_EPOCH: u8 = 3;
pub(crate) const TOPIC: u8 = 4;
pub(crate) const MEMBER: u8 = 5;
pub(crate) const TARGET_EPOCH: u8 = 6;
pub(crate) const TARGET: u8 = 7;
pub(crate) const ASSIGNMENT: u8 = 8;

pub(crate) const GONE: u8 = 0;
pub(crate) const PRESENT: u8 = 1;

/// "the top bit set on all but the last byte".
pub(crate) const MORE: u8 = 0x80;

pub(crate) struct Records {
    bytes: Vec<u8>,
}

impl Records {
    pub fn new() -> Records {
        Records { bytes: Vec::new() }
    }

    /// "3: G."
    pub fn group_epoch(&mut self, epoch: i32) {
        self.bytes.push(GROUP_EPOCH);
        self.epoch(epoch);
    }

    /// "4: topic, 16 ID bytes, count."
    pub fn topic(&mut self, number: u8, topic: &Topic) {
        self.bytes.extend([TOPIC, number]);
        self.bytes.extend(topic.id);
        self.number(topic.count.into());
    }

    /// "5: place, 1, 16 ID bytes, timeout, subscription (topic t is 2^t)."
    pub fn member(&mut self, place: Place, id: &Id, timeout: u32, subscription: u16) {
        self.bytes.extend([MEMBER, place, PRESENT]);
        self.bytes.extend(id);
        self.number(timeout);
        self.number(subscription.into());
    }

    /// "6: T."
    pub fn target_epoch(&mut self, epoch: i32) {
        self.bytes.push(TARGET_EPOCH);
        self.epoch(epoch);
    }

    /// "7: place, set."
    pub fn target(&mut self, place: Place, target: &BTreeSet<Slot>) {
        self.bytes.extend([TARGET, place]);
        self.set(target);
    }

    /// "7 empty".
    pub fn no_target(&mut self, place: Place) {
        self.target(place, &BTreeSet::new());
    }

    /// "8: place, E, set A, set P."
    pub fn assignment(&mut self, place: Place, holding: &Holding) {
        self.bytes.extend([ASSIGNMENT, place]);
        self.epoch(holding.epoch);
        self.set(&holding.assigned);
        self.set(&holding.revoking);
    }

    /// "Leave: 8 gone, 7 empty (if it was not), 5 gone"; "Gone: place, 0".
    pub fn gone(&mut self, member: &Membership, had_target: bool) {
        self.bytes.extend([ASSIGNMENT, member.place, GONE]);
        if had_target {
            self.no_target(member.place);
        }
        self.bytes.extend([MEMBER, member.place, GONE]);
    }

    /// Records that stand there already.
    pub fn append(&mut self, records: &[u8]) {
        self.bytes.extend(records);
    }

    /// "Each record goes straight after the one before, from the buffer's start; bytes after the
    /// last are unchanged." 1003 where they don't fit, and then nothing is written.
    pub fn store(&self, buffer: &mut [u8]) -> Result<usize, Refusal> {
        let written = self.bytes.len();
        let room = buffer.get_mut(..written).ok_or(Refusal::Room)?;
        room.copy_from_slice(&self.bytes);
        Ok(written)
    }

    /// "A set is its size, then its lowest slot, then each difference from the one before."
    fn set(&mut self, slots: &BTreeSet<Slot>) {
        self.number(slots.len() as u32);
        let mut before = 0;
        for &slot in slots {
            self.number((slot - before).into());
            before = slot;
        }
    }

    /// No epoch of a group is below 0, so its bits are the number.
    fn epoch(&mut self, epoch: i32) {
        self.number(epoch as u32);
    }

    /// "A number is written in groups of seven bits, lowest first, the top bit set on all but the
    /// last byte, in the fewest bytes."
    pub fn number(&mut self, mut number: u32) {
        while number >= MORE.into() {
            self.bytes.push(number as u8 | MORE);
            number >>= 7;
        }
        self.bytes.push(number as u8);
    }
}

#[cfg(test)]
mod tests {
    use super::*;

    fn number(number: u32) -> Vec<u8> {
        let mut records = Records::new();
        records.number(number);
        records.bytes
    }

    fn set(slots: &[Slot]) -> Vec<u8> {
        let mut records = Records::new();
        records.set(&slots.iter().copied().collect());
        records.bytes
    }

    #[test]
    fn a_number_takes_the_fewest_bytes() {
        assert_eq!(number(0), [0x00]);
        assert_eq!(number(127), [0x7F]);
        assert_eq!(number(128), [0x80, 0x01]);
        assert_eq!(number(300), [0xAC, 0x02]);
        assert_eq!(number(16_383), [0xFF, 0x7F]);
        assert_eq!(number(16_384), [0x80, 0x80, 0x01]);
        assert_eq!(number(1_800_000), [0xC0, 0xEE, 0x6D]);
        assert_eq!(number(2_147_483_647), [0xFF, 0xFF, 0xFF, 0xFF, 0x07]);
    }

    #[test]
    fn a_set_is_its_size_its_lowest_slot_and_the_differences() {
        assert_eq!(set(&[]), [0]);
        assert_eq!(set(&[0]), [1, 0]);
        assert_eq!(set(&[5, 6, 9]), [3, 5, 1, 3]);
        assert_eq!(set(&[0, 1_023]), [2, 0, 0xFF, 0x07]);
        assert_eq!(set(&[300]), [1, 0xAC, 0x02]);
    }

    #[test]
    fn a_buffer_one_short_is_left_alone() {
        let mut records = Records::new();
        records.group_epoch(300);
        let mut buffer = [9; 2];
        assert_eq!(records.store(&mut buffer), Err(Refusal::Room));
        assert_eq!(buffer, [9; 2]);
        let mut buffer = [9; 4];
        assert_eq!(records.store(&mut buffer), Ok(3));
        assert_eq!(buffer, [3, 0xAC, 0x02, 9]);
    }
}
