//! Damaged files: a journal as it was written, and what may become of it on the way to a reader.

use super::forge::Forge;
use super::records::write;
use super::spoil::spoiled;
use super::written::{framed, Journal};
use crate::data::ROOMY;
use crate::journal::Reads;
use crate::labels::labels;
use crate::random::Random;
use crate::sides::Reference;

labels! {
    pub enum Damage {
        None = "as it was written",
        Cut = "cut",
        Byte = "a byte changed",
        HeadingByte = "a byte of the heading changed",
        HeadingCut = "cut after a changed byte of the heading",
        Swapped = "two batches swapped",
        Repeated = "a batch repeated",
        Dropped = "a batch dropped",
        Foreign = "a batch of another journal",
        Forged = "a batch put together from records",
        Spoiled = "a batch changed, its length right",
        Length = "a wrong length",
        LengthEnd = "a wrong length at the end",
    }
}

pub struct Damaged {
    pub damage: Damage,
    pub bytes: Vec<u8>,
    /// So many bytes are as they were written.
    pub sound: usize,
}

const HEADING: [u8; 4] = Reference::HEADING;

/// What a changed byte is changed by.
const BITS: [u8; 9] = [1, 2, 4, 8, 16, 32, 64, 128, 255];

/// Lengths that no batch has, and such as have too many bytes.
const LENGTHS: [&[u8]; 20] = [
    &[0x00],
    &[0x80],
    &[0xFF],
    &[0x80, 0x00],
    &[0x81, 0x00],
    &[0xFF, 0x00],
    &[0x80, 0x80],
    &[0x81, 0x80],
    &[0xFF, 0xFF],
    &[0x80, 0x80, 0x00],
    &[0x81, 0x80, 0x00],
    &[0x80, 0x80, 0x01],
    &[0xFF, 0xFF, 0xFF, 0xFF, 0x0F],
    &[0x80, 0x20],
    &[0x81, 0x20],
    &[0xFF, 0x20],
    &[0x80, 0x21],
    &[0x80, 0x40],
    &[0xFF, 0x7F],
    &[0xFF, 0x1F],
];

/// Forged and spoiled batches at each place of a journal, where every damage is tried.
const BATCHES_AT_EACH: usize = 20;

/// Every damage to a short journal, and several of those of which there is no end.
pub fn every<E>(
    journal: &Journal,
    other: &Journal,
    random: &mut Random,
    mut each: impl FnMut(Damaged) -> Result<(), E>,
) -> Result<(), E> {
    let (bytes, batches) = (&journal.bytes, journal.batches.len());
    each(journal.as_written())?;
    for at in 0..bytes.len() {
        each(journal.cut(at))?;
    }
    for at in 0..HEADING.len() {
        for bits in BITS {
            each(journal.with_byte(at, bits))?;
            each(journal.with_byte(at, bits).cut_after(at))?;
        }
    }
    for at in HEADING.len()..bytes.len() {
        for bits in BITS {
            each(journal.with_byte(at, bits))?;
        }
    }
    for one in 0..batches {
        each(journal.without(one))?;
        for other in 0..batches {
            each(journal.repeating(one, other))?;
            if one < other {
                each(journal.swapped(one, other))?;
            }
        }
    }
    for at in 0..=batches {
        for foreign in 0..other.batches.len() {
            each(journal.with(at, other.frame_of(foreign), Damage::Foreign))?;
        }
        let mut forge = Forge::new(journal.group_after(at), Random::new(random.next()));
        for _ in 0..BATCHES_AT_EACH {
            each(journal.with(at, &framed(&write(&forge.batch())), Damage::Forged))?;
        }
    }
    for at in 0..batches {
        for _ in 0..BATCHES_AT_EACH {
            each(journal.spoiled(at, random))?;
        }
        for length in lengths(journal.batches[at].records.len()) {
            each(journal.with_length(at, &length))?;
            each(journal.ending_in_length(at, &length))?;
        }
    }
    Ok(())
}

/// A damage of some sort to a journal that has batches, as has the other; often to a batch alone.
pub fn some(journal: &Journal, other: &Journal, random: &mut Random) -> Damaged {
    let (size, batches) = (journal.bytes.len(), journal.batches.len());
    let (one, two) = (random.below(batches), random.below(batches));
    let at = random.below(batches + 1);
    let byte = random.between(HEADING.len(), size - 1);
    let bits = random.between(1, 255) as u8;
    let sort = match random.chance(1, 3) {
        true => random.pick(&[Damage::Forged, Damage::Spoiled]),
        false => random.pick(Damage::ALL),
    };
    match sort {
        Damage::None => journal.as_written(),
        Damage::Cut => journal.cut(random.below(size)),
        Damage::Byte => journal.with_byte(byte, bits),
        Damage::HeadingByte => journal.with_byte(byte % HEADING.len(), bits),
        Damage::HeadingCut => {
            let byte = byte % HEADING.len();
            journal.with_byte(byte, bits).cut_after(byte)
        }
        Damage::Swapped => journal.swapped(one.min(two), one.max(two)),
        Damage::Repeated => journal.repeating(one, two),
        Damage::Dropped => journal.without(one),
        Damage::Foreign => {
            let foreign = other.frame_of(random.below(other.batches.len()));
            journal.with(at, foreign, Damage::Foreign)
        }
        Damage::Forged => {
            let mut forge = Forge::new(journal.group_after(at), Random::new(random.next()));
            journal.with(at, &framed(&write(&forge.batch())), Damage::Forged)
        }
        Damage::Spoiled => journal.spoiled(one, random),
        Damage::Length | Damage::LengthEnd => {
            let lengths = lengths(journal.batches[one].records.len());
            let length = &lengths[random.below(lengths.len())];
            match random.chance(1, 2) {
                true => journal.with_length(one, length),
                false => journal.ending_in_length(one, length),
            }
        }
    }
}

/// The lengths above, those one off the right one, and that one in a byte more.
fn lengths(right: usize) -> Vec<Vec<u8>> {
    let number = |number: usize| {
        let mut bytes = Vec::new();
        super::records::number(number as u32, &mut bytes);
        bytes
    };
    let mut stretched = number(right);
    if let Some(last) = stretched.last_mut() {
        *last |= 0x80;
    }
    stretched.push(0);
    let mut lengths: Vec<Vec<u8>> = LENGTHS.map(<[u8]>::to_vec).into();
    lengths.extend([number(right + 1), number(right - 1), stretched]);
    lengths.push(number(right + ROOMY));
    lengths
}

impl Damaged {
    fn cut_after(mut self, byte: usize) -> Damaged {
        self.bytes.truncate(byte + 1);
        self.damage = Damage::HeadingCut;
        self
    }
}

impl Journal {
    pub fn as_written(&self) -> Damaged {
        self.damaged(Damage::None, self.bytes.clone(), self.bytes.len())
    }

    pub fn cut(&self, at: usize) -> Damaged {
        self.damaged(Damage::Cut, self.bytes[..at].to_vec(), at)
    }

    fn with_byte(&self, at: usize, bits: u8) -> Damaged {
        let mut bytes = self.bytes.clone();
        bytes[at] ^= bits;
        let damage = match at < HEADING.len() {
            true => Damage::HeadingByte,
            false => Damage::Byte,
        };
        self.damaged(damage, bytes, at)
    }

    fn swapped(&self, one: usize, other: usize) -> Damaged {
        let mut order: Vec<usize> = (0..self.batches.len()).collect();
        order.swap(one, other);
        self.of_batches(Damage::Swapped, &order, one)
    }

    /// A batch once more before another.
    fn repeating(&self, one: usize, before: usize) -> Damaged {
        let mut order: Vec<usize> = (0..self.batches.len()).collect();
        order.insert(before, one);
        self.of_batches(Damage::Repeated, &order, before)
    }

    fn without(&self, one: usize) -> Damaged {
        let mut order: Vec<usize> = (0..self.batches.len()).collect();
        order.remove(one);
        self.of_batches(Damage::Dropped, &order, one)
    }

    /// The batches in this order, of which so many are where they were.
    fn of_batches(&self, damage: Damage, order: &[usize], same: usize) -> Damaged {
        let frames = order.iter().map(|&batch| self.frame_of(batch));
        let bytes = [&HEADING[..]].into_iter().chain(frames);
        self.damaged(
            damage,
            bytes.collect::<Vec<_>>().concat(),
            self.end_of(same),
        )
    }

    /// Something in it after so many batches, and then the others.
    pub fn with(&self, batches: usize, frame: &[u8], damage: Damage) -> Damaged {
        let at = self.end_of(batches);
        let bytes = [&self.bytes[..at], frame, &self.bytes[at..]].concat();
        self.damaged(damage, bytes, at)
    }

    fn spoiled(&self, batch: usize, random: &mut Random) -> Damaged {
        let frame = framed(&spoiled(&self.batches[batch].records, random));
        let Damaged { bytes, sound, .. } = self.with(batch, &frame, Damage::Spoiled);
        let mut bytes = bytes;
        bytes.drain(sound + frame.len()..sound + frame.len() + self.frame_of(batch).len());
        self.damaged(Damage::Spoiled, bytes, sound)
    }

    fn with_length(&self, batch: usize, length: &[u8]) -> Damaged {
        let at = self.batches[batch].offset;
        let start = self.batches[batch].end - self.batches[batch].records.len();
        let bytes = [&self.bytes[..at], length, &self.bytes[start..]].concat();
        self.damaged(Damage::Length, bytes, at)
    }

    fn ending_in_length(&self, batch: usize, length: &[u8]) -> Damaged {
        let at = self.batches[batch].offset;
        let bytes = [&self.bytes[..at], length].concat();
        self.damaged(Damage::LengthEnd, bytes, at)
    }

    fn damaged(&self, damage: Damage, bytes: Vec<u8>, sound: usize) -> Damaged {
        Damaged {
            damage,
            bytes,
            sound,
        }
    }
}
