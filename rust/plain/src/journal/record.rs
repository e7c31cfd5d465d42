//! Reads a batch as records, strictly: what 01's section 'Records' does not write is no record.

use std::collections::BTreeSet;

use crate::limits::SLOTS;
use crate::protocol::{Id, Place, Slot, Topic};
use crate::records::*;

#[derive(Clone, PartialEq, Eq, Debug)]
pub(super) enum Record {
    GroupEpoch(i32),
    Topic {
        number: u8,
        topic: Topic,
    },
    Member {
        place: Place,
        id: Id,
        timeout: u32,
        subscription: u16,
    },
    MemberGone {
        place: Place,
    },
    TargetEpoch(i32),
    Target {
        place: Place,
        slots: BTreeSet<Slot>,
    },
    Assignment {
        place: Place,
        epoch: i32,
        assigned: BTreeSet<Slot>,
        revoking: BTreeSet<Slot>,
    },
    AssignmentGone {
        place: Place,
    },
}

/// The records, of which nothing is left over; None where the bytes are no records, or have a number
/// in them that is too large for what it stands for.
pub(super) fn read(bytes: &[u8]) -> Option<Vec<Record>> {
    let mut rest = Rest { bytes };
    let mut records = Vec::new();
    while !rest.bytes.is_empty() {
        records.push(rest.record()?);
    }
    Some(records)
}

/// What is still to be read.
struct Rest<'a> {
    bytes: &'a [u8],
}

impl Rest<'_> {
    fn record(&mut self) -> Option<Record> {
        match self.byte()? {
            GROUP_EPOCH => Some(Record::GroupEpoch(self.small()?)),
            TOPIC => Some(Record::Topic {
                number: self.small()?,
                topic: Topic {
                    id: self.id()?,
                    count: self.small()?,
                },
            }),
            MEMBER => self.member(),
            TARGET_EPOCH => Some(Record::TargetEpoch(self.small()?)),
            TARGET => Some(Record::Target {
                place: self.small()?,
                slots: self.set()?,
            }),
            ASSIGNMENT => self.assignment(),
            _ => None,
        }
    }

    /// "5: place, 1, 16 ID bytes, timeout, subscription (topic t is 2^t). Gone: place, 0."
    fn member(&mut self) -> Option<Record> {
        let place = self.small()?;
        match self.byte()? {
            GONE => Some(Record::MemberGone { place }),
            PRESENT => Some(Record::Member {
                place,
                id: self.id()?,
                timeout: self.number()?,
                subscription: self.small()?,
            }),
            _ => None,
        }
    }

    /// "8: place, E, set A, set P. Gone: place, 0." No member's epoch is 0.
    fn assignment(&mut self) -> Option<Record> {
        let place = self.small()?;
        let epoch = self.small()?;
        if epoch == i32::from(GONE) {
            return Some(Record::AssignmentGone { place });
        }
        Some(Record::Assignment {
            place,
            epoch,
            assigned: self.set()?,
            revoking: self.set()?,
        })
    }

    /// "A set is its size, then its lowest slot, then each difference from the one before."
    fn set(&mut self) -> Option<BTreeSet<Slot>> {
        let size = self.number()?;
        let mut slots = BTreeSet::new();
        for _ in 0..size {
            let number = self.number()?;
            let slot = match slots.last() {
                None => number,
                Some(_) if number == 0 => return None,
                Some(&before) => number.checked_add(u32::from(before))?,
            };
            if slot as usize >= SLOTS {
                return None;
            }
            slots.insert(slot as Slot);
        }
        Some(slots)
    }

    /// A number that is small enough for its type.
    fn small<N: TryFrom<u32>>(&mut self) -> Option<N> {
        N::try_from(self.number()?).ok()
    }

    /// "in groups of seven bits, lowest first, the top bit set on all but the last byte, in the
    /// fewest bytes": the last byte of several is not 0.
    fn number(&mut self) -> Option<u32> {
        let mut number = 0_u64;
        for shift in [0, 7, 14, 21, 28] {
            let byte = self.byte()?;
            number |= u64::from(byte % MORE) << shift;
            if byte < MORE {
                let is_fewest = byte != 0 || shift == 0;
                return number.try_into().ok().filter(|_| is_fewest);
            }
        }
        None
    }

    fn id(&mut self) -> Option<Id> {
        let (id, rest) = self.bytes.split_first_chunk()?;
        self.bytes = rest;
        Some(*id)
    }

    fn byte(&mut self) -> Option<u8> {
        let (byte, rest) = self.bytes.split_first()?;
        self.bytes = rest;
        Some(*byte)
    }
}

#[cfg(test)]
mod tests {
    use super::*;

    fn with_id(before: &[u8], after: &[u8]) -> Vec<u8> {
        [before, &[0xAA; 16], after].concat()
    }

    #[test]
    fn each_kind_is_read() {
        let id = [0xAA; 16];
        let topic = Topic { id, count: 64 };
        let member = Record::Member {
            place: 31,
            id,
            timeout: 300,
            subscription: 65_535,
        };
        let assignment = Record::Assignment {
            place: 1,
            epoch: i32::MAX,
            assigned: [0, 1_023].into(),
            revoking: [5, 6, 9].into(),
        };
        let target = Record::Target {
            place: 2,
            slots: BTreeSet::new(),
        };
        let cases = [
            (vec![3, 0], Record::GroupEpoch(0)),
            (
                with_id(&[4, 15], &[64]),
                Record::Topic { number: 15, topic },
            ),
            (with_id(&[5, 31, 1], &[0xAC, 2, 0xFF, 0xFF, 3]), member),
            (vec![5, 3, 0], Record::MemberGone { place: 3 }),
            (vec![6, 0x80, 1], Record::TargetEpoch(128)),
            (vec![7, 2, 0], target),
            (
                [
                    &[8, 1, 255, 255, 255, 255, 7, 2, 0, 255, 7][..],
                    &[3, 5, 1, 3],
                ]
                .concat(),
                assignment,
            ),
            (vec![8, 3, 0], Record::AssignmentGone { place: 3 }),
        ];
        for (bytes, record) in &cases {
            assert_eq!(read(bytes), Some(vec![record.clone()]), "{bytes:02X?}");
            for cut in 1..bytes.len() {
                assert_eq!(read(&bytes[..cut]), None, "{:02X?}", &bytes[..cut]);
            }
        }
        let all = cases.map(|(bytes, _)| bytes).concat();
        assert_eq!(read(&all).map(|records| records.len()), Some(8));
    }

    #[test]
    fn what_no_writer_writes_is_no_record() {
        for bytes in [
            &[0][..],
            &[2, 1],
            &[9, 0],
            // Not in fewest bytes, beyond the largest epoch, and longer than any number.
            &[3, 0x80, 0x00],
            &[3, 0x81, 0x00],
            &[3, 255, 255, 255, 255, 8],
            &[3, 255, 255, 255, 255, 16],
            &[3, 255, 255, 255, 255, 255, 0],
            // Places and topics that no byte has.
            &[7, 0x80, 0x02, 0],
            &[5, 0, 2],
            // Neither gone nor there, though it reads as 1 in two bytes.
            &[5, 0, 0x81, 0],
            // A slot twice, one beyond the last, and a sum that runs over.
            &[7, 0, 2, 5, 0],
            &[7, 0, 1, 0x80, 0x08],
            &[7, 0, 2, 1, 255, 255, 255, 255, 15],
            &[7, 0, 255, 255, 255, 255, 15],
        ] {
            assert_eq!(read(bytes), None, "{bytes:02X?}");
        }
        assert_eq!(read(&with_id(&[5, 0, 1], &[1, 0x80, 0x80, 4])), None);
        assert_eq!(read(&with_id(&[4, 0], &[0x80, 2])), None);
    }
}
