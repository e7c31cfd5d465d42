//! The records of 01, written to the lent buffer.

use plain::{Id, Refusal, Topic};

use crate::slots::Slots;

const GROUP_EPOCH: u8 = 3;
const TOPIC: u8 = 4;
const MEMBER: u8 = 5;
const TARGET_EPOCH: u8 = 6;
const TARGET: u8 = 7;
const ASSIGNMENT: u8 = 8;

const GONE: u8 = 0;
const PRESENT: u8 = 1;

/// "No event needs more than 4,096 bytes."
const MOST: usize = 4_096;

/// Writes an event's records to the buffer: how many bytes they are, or 1003 where they don't fit,
/// and then nothing is written. A buffer that any event fits is written straight away.
#[inline]
pub(crate) fn store(buffer: &mut [u8], write: impl FnOnce(&mut Records)) -> Result<usize, Refusal> {
    if buffer.len() >= MOST {
        return Ok(written(buffer, write));
    }
    let mut scratch = [0; MOST];
    let length = written(&mut scratch, write);
    let room = buffer.get_mut(..length).ok_or(Refusal::Room)?;
    room.copy_from_slice(&scratch[..length]);
    Ok(length)
}

#[inline]
fn written(bytes: &mut [u8], write: impl FnOnce(&mut Records)) -> usize {
    let mut records = Records { bytes, length: 0 };
    write(&mut records);
    records.length
}

/// "Each record goes straight after the one before, from the buffer's start."
pub(crate) struct Records<'a> {
    bytes: &'a mut [u8],
    length: usize,
}

impl Records<'_> {
    /// "3: G."
    #[inline]
    pub fn group_epoch(&mut self, epoch: i32) {
        self.byte(GROUP_EPOCH);
        self.number(epoch as u32);
    }

    /// "4: topic, 16 ID bytes, count."
    pub fn topic(&mut self, number: u8, topic: &Topic) {
        self.all(&[TOPIC, number]);
        self.all(&topic.id);
        self.byte(topic.count);
    }

    /// "5: place, 1, 16 ID bytes, timeout, subscription (topic t is 2^t)."
    #[inline]
    pub fn member(&mut self, place: usize, id: &Id, timeout: u32, subscription: u16) {
        self.all(&[MEMBER, place as u8, PRESENT]);
        self.all(id);
        self.number(timeout);
        self.number(subscription.into());
    }

    /// "6: T."
    pub fn target_epoch(&mut self, epoch: i32) {
        self.byte(TARGET_EPOCH);
        self.number(epoch as u32);
    }

    /// "7: place, set."
    #[inline]
    pub fn target(&mut self, place: usize, target: &Slots) {
        self.all(&[TARGET, place as u8]);
        self.set(target);
    }

    /// "8: place, E, set A, set P."
    #[inline]
    pub fn assignment(&mut self, place: usize, epoch: i32, assigned: &Slots, revoking: &Slots) {
        self.all(&[ASSIGNMENT, place as u8]);
        self.number(epoch as u32);
        self.set(assigned);
        self.set(revoking);
    }

    /// "Leave: 8 gone, 7 empty (if it was not), 5 gone"; "Gone: place, 0".
    #[inline]
    pub fn gone(&mut self, place: usize, target: &Slots) {
        self.all(&[ASSIGNMENT, place as u8, GONE]);
        if !target.is_empty() {
            self.target(place, &Slots::EMPTY);
        }
        self.all(&[MEMBER, place as u8, GONE]);
    }

    /// "A set is its size, then its lowest slot, then each difference from the one before."
    #[inline]
    fn set(&mut self, slots: &Slots) {
        self.number(slots.count() as u32);
        if slots.is_empty() {
            return;
        }
        let mut before = 0;
        slots.for_each(|slot| {
            self.number((slot - before).into());
            before = slot;
        });
    }

    /// "A number is written in groups of seven bits, lowest first, the top bit set on all but the
    /// last byte, in the fewest bytes."
    #[inline]
    fn number(&mut self, mut number: u32) {
        while number >= 0x80 {
            self.byte(number as u8 | 0x80);
            number >>= 7;
        }
        self.byte(number as u8);
    }

    #[inline]
    fn byte(&mut self, byte: u8) {
        self.bytes[self.length] = byte;
        self.length += 1;
    }

    #[inline]
    fn all(&mut self, bytes: &[u8]) {
        let end = self.length + bytes.len();
        self.bytes[self.length..end].copy_from_slice(bytes);
        self.length = end;
    }
}
