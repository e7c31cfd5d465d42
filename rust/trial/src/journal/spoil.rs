//! A batch with something changed in it: a record dropped, doubled, moved, or another number in it;
//! or a byte changed, put in or taken out.

use super::forge::toggle;
use super::records::write;
use crate::data::SLOTS;
use crate::random::Random;
use crate::reader::{read, Record};

/// The records of a batch, spoiled.
pub fn spoiled(batch: &[u8], random: &mut Random) -> Vec<u8> {
    match read(batch) {
        Ok(mut records) if random.chance(1, 2) => {
            spoil_records(&mut records, random);
            write(&records)
        }
        _ => spoiled_bytes(batch, random),
    }
}

fn spoiled_bytes(batch: &[u8], random: &mut Random) -> Vec<u8> {
    let mut bytes = batch.to_vec();
    let at = random.below(bytes.len());
    match random.below(8) {
        0 => bytes.insert(at, random.next() as u8),
        1 => bytes.insert(at, bytes[at]),
        2 if bytes.len() > 1 => {
            bytes.remove(at);
        }
        // The same number in a byte more.
        3 => {
            bytes[at] |= 0x80;
            bytes.insert(at + 1, 0);
        }
        4 => bytes.push(random.pick(&[0, 3, 255])),
        5 => bytes[at] = random.next() as u8,
        6 => bytes[at] = bytes[at].wrapping_add(random.pick(&[1, 255])),
        _ => bytes[at] ^= 1 << random.below(8),
    }
    bytes
}

fn spoil_records(records: &mut Vec<Record>, random: &mut Random) {
    let at = random.below(records.len());
    let other = random.below(records.len());
    match random.below(8) {
        0 if records.len() > 1 => {
            records.remove(at);
        }
        1 => records.insert(other, records[at].clone()),
        2 if at != other => records.swap(at, other),
        3 if records.len() > 1 => records.truncate(at.max(1)),
        _ => spoil_record(&mut records[at], random),
    }
}

fn spoil_record(record: &mut Record, random: &mut Random) {
    let step = random.pick(&[1, 1, 2, u32::MAX]);
    let bit = 1 << random.below(8);
    let byte = random.below(16);
    let slot = random.below(SLOTS) as u16;
    let draw = random.below(4);
    match record {
        Record::GroupEpoch(epoch) | Record::TargetEpoch(epoch) => step_by(epoch, step),
        Record::Topic { number, id, count } => match draw {
            0 => *number = number.wrapping_add(step as u8) % 32,
            1 => id[byte] ^= bit,
            _ => step_by(count, step),
        },
        Record::Member {
            place,
            id,
            timeout,
            subscription,
        } => match draw {
            0 => *place = place.wrapping_add(step as u8),
            1 => id[byte] ^= bit,
            2 => step_by(timeout, step),
            _ => *subscription ^= u32::from(bit),
        },
        Record::MemberGone { place } | Record::AssignmentGone { place } => {
            *place = place.wrapping_add(step as u8)
        }
        Record::Target { place, slots } => match draw {
            0 => *place = place.wrapping_add(step as u8),
            _ => spoil_set(slots, slot, random),
        },
        Record::Assignment {
            place,
            epoch,
            assigned,
            revoking,
        } => match draw {
            0 => *place = place.wrapping_add(step as u8),
            1 => step_by(epoch, step),
            2 => spoil_set(assigned, slot, random),
            _ => spoil_set(revoking, slot, random),
        },
    }
}

/// Epochs and the like are below 2^31 + 1.
fn step_by(number: &mut u32, step: u32) {
    *number = number.wrapping_add(step) % ((1 << 31) + 1);
}

fn spoil_set(slots: &mut Vec<u16>, any: u16, random: &mut Random) {
    let near = slots.last().map_or(any, |last| (last + 1) % SLOTS as u16);
    let own = slots.get(random.below(slots.len())).copied();
    toggle(slots, random.pick(&[any, near, own.unwrap_or(near)]));
}
