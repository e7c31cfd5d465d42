//! Reads stored records by the words of 01's section 'Records'. It knows nothing of any writer, and
//! refuses what does not read as whole records.

use crate::data::{Id, SLOTS};

#[derive(Clone, PartialEq, Eq, Debug)]
pub enum Record {
    GroupEpoch(u32),
    Topic {
        number: u8,
        id: Id,
        count: u32,
    },
    Member {
        place: u8,
        id: Id,
        timeout: u32,
        subscription: u32,
    },
    MemberGone {
        place: u8,
    },
    TargetEpoch(u32),
    Target {
        place: u8,
        slots: Vec<u16>,
    },
    Assignment {
        place: u8,
        epoch: u32,
        assigned: Vec<u16>,
        revoking: Vec<u16>,
    },
    AssignmentGone {
        place: u8,
    },
}

/// All records, or the offset of the first byte that does not fit.
pub fn read(bytes: &[u8]) -> Result<Vec<Record>, usize> {
    let mut reader = Reader { bytes, at: 0 };
    let mut records = Vec::new();
    while reader.at < bytes.len() {
        let record = reader.record().ok_or(reader.at)?;
        records.push(record);
    }
    Ok(records)
}

struct Reader<'a> {
    bytes: &'a [u8],
    at: usize,
}

impl Reader<'_> {
    fn record(&mut self) -> Option<Record> {
        match self.byte()? {
            3 => Some(Record::GroupEpoch(self.number()?)),
            4 => Some(Record::Topic {
                number: self.small()?,
                id: self.id()?,
                count: self.number()?,
            }),
            5 => self.member(),
            6 => Some(Record::TargetEpoch(self.number()?)),
            7 => Some(Record::Target {
                place: self.small()?,
                slots: self.set()?,
            }),
            8 => self.assignment(),
            _ => None,
        }
    }

    fn member(&mut self) -> Option<Record> {
        let place = self.small()?;
        match self.number()? {
            0 => Some(Record::MemberGone { place }),
            1 => Some(Record::Member {
                place,
                id: self.id()?,
                timeout: self.number()?,
                subscription: self.number()?,
            }),
            _ => None,
        }
    }

    /// "Gone: place, 0": no member's epoch is 0.
    fn assignment(&mut self) -> Option<Record> {
        let place = self.small()?;
        match self.number()? {
            0 => Some(Record::AssignmentGone { place }),
            epoch => Some(Record::Assignment {
                place,
                epoch,
                assigned: self.set()?,
                revoking: self.set()?,
            }),
        }
    }

    /// "its size, then its lowest slot, then each difference from the one before".
    fn set(&mut self) -> Option<Vec<u16>> {
        let size = self.number()?;
        let mut slots: Vec<u16> = Vec::new();
        for _ in 0..size {
            let step = self.number()?;
            let slot = match slots.last() {
                None => step,
                Some(_) if step == 0 => return None,
                Some(&before) => step.checked_add(before.into())?,
            };
            slots.push(
                u16::try_from(slot)
                    .ok()
                    .filter(|&s| usize::from(s) < SLOTS)?,
            );
        }
        Some(slots)
    }

    fn small(&mut self) -> Option<u8> {
        u8::try_from(self.number()?).ok()
    }

    /// Groups of seven bits, lowest first, in the fewest bytes, below 2^31.
    fn number(&mut self) -> Option<u32> {
        let mut number: u64 = 0;
        for group in 0..5 {
            let byte = self.byte()?;
            number |= u64::from(byte & 0x7F) << (7 * group);
            if byte & 0x80 == 0 {
                let is_shortest = byte != 0 || group == 0;
                let fits = i32::try_from(number).is_ok();
                return (is_shortest && fits).then_some(number as u32);
            }
        }
        None
    }

    fn id(&mut self) -> Option<Id> {
        let id = self.bytes.get(self.at..self.at + 16)?;
        self.at += 16;
        id.try_into().ok()
    }

    fn byte(&mut self) -> Option<u8> {
        let byte = *self.bytes.get(self.at)?;
        self.at += 1;
        Some(byte)
    }
}

#[cfg(test)]
mod tests {
    use super::*;

    #[test]
    fn reads_the_records_of_p6_and_p8() {
        let p6 = [7, 0, 2, 0, 1, 7, 1, 1, 2, 6, 2];
        let target = |place, slots: &[u16]| Record::Target {
            place,
            slots: slots.to_vec(),
        };
        let records = vec![target(0, &[0, 1]), target(1, &[2]), Record::TargetEpoch(2)];
        assert_eq!(read(&p6), Ok(records));
        let p8 = Record::Assignment {
            place: 0,
            epoch: 1,
            assigned: vec![0, 1],
            revoking: vec![2],
        };
        assert_eq!(read(&[8, 0, 1, 2, 0, 1, 1, 2]), Ok(vec![p8]));
    }

    #[test]
    fn reads_members_and_those_gone() {
        let mut bytes = vec![8, 3, 0, 5, 3, 0, 5, 1, 1];
        bytes.extend([0xAA; 16]);
        bytes.extend([0xAC, 0x02, 0x01]);
        let member = Record::Member {
            place: 1,
            id: [0xAA; 16],
            timeout: 300,
            subscription: 1,
        };
        let gone = [
            Record::AssignmentGone { place: 3 },
            Record::MemberGone { place: 3 },
        ];
        assert_eq!(read(&bytes), Ok([&gone[..], &[member]].concat()));
    }

    #[test]
    fn refuses_what_is_no_record() {
        for bytes in [
            &[9][..],
            &[3],
            &[3, 0x80],
            &[3, 0x81, 0x00],
            &[3, 0xFF, 0xFF, 0xFF, 0xFF, 0x08],
            &[5, 0, 2],
            &[7, 0, 2, 5, 0],
            &[7, 0, 1, 0x80, 0x08],
            &[8, 0, 1, 0],
        ] {
            assert!(read(bytes).is_err(), "{bytes:?}");
        }
    }
}
