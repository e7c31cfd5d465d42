//! Writes records by the words of 01's section 'Records', whatever is in them: the other way round of
//! `reader`.

use crate::reader::Record;

pub fn write(records: &[Record]) -> Vec<u8> {
    let mut bytes = Vec::new();
    for record in records {
        write_one(record, &mut bytes);
    }
    bytes
}

fn write_one(record: &Record, bytes: &mut Vec<u8>) {
    match record {
        Record::GroupEpoch(epoch) => {
            bytes.push(3);
            number(*epoch, bytes);
        }
        Record::Topic {
            number: topic,
            id,
            count,
        } => {
            bytes.push(4);
            number((*topic).into(), bytes);
            bytes.extend(id);
            number(*count, bytes);
        }
        Record::Member {
            place,
            id,
            timeout,
            subscription,
        } => {
            bytes.push(5);
            number((*place).into(), bytes);
            bytes.push(1);
            bytes.extend(id);
            number(*timeout, bytes);
            number(*subscription, bytes);
        }
        Record::MemberGone { place } => {
            bytes.push(5);
            number((*place).into(), bytes);
            bytes.push(0);
        }
        Record::TargetEpoch(epoch) => {
            bytes.push(6);
            number(*epoch, bytes);
        }
        Record::Target { place, slots } => {
            bytes.push(7);
            number((*place).into(), bytes);
            set(slots, bytes);
        }
        Record::Assignment {
            place,
            epoch,
            assigned,
            revoking,
        } => {
            bytes.push(8);
            number((*place).into(), bytes);
            number(*epoch, bytes);
            set(assigned, bytes);
            set(revoking, bytes);
        }
        Record::AssignmentGone { place } => {
            bytes.push(8);
            number((*place).into(), bytes);
            bytes.push(0);
        }
    }
}

/// Of a rising list.
fn set(slots: &[u16], bytes: &mut Vec<u8>) {
    number(slots.len() as u32, bytes);
    let mut before = 0;
    for &slot in slots {
        number(u32::from(slot) - before, bytes);
        before = slot.into();
    }
}

pub fn number(mut number: u32, bytes: &mut Vec<u8>) {
    while number > 127 {
        bytes.push((number % 128 + 128) as u8);
        number /= 128;
    }
    bytes.push(number as u8);
}

#[cfg(test)]
mod tests {
    use super::*;
    use crate::reader::read;

    #[test]
    fn what_is_written_is_read() {
        let id = [0xAA; 16];
        let records = [
            Record::GroupEpoch(300),
            Record::Topic {
                number: 15,
                id,
                count: 64,
            },
            Record::Member {
                place: 31,
                id,
                timeout: 1_800_000,
                subscription: 65_535,
            },
            Record::MemberGone { place: 200 },
            Record::TargetEpoch(2_147_483_647),
            Record::Target {
                place: 1,
                slots: vec![0, 1, 700, 1_023],
            },
            Record::Assignment {
                place: 2,
                epoch: 1,
                assigned: vec![5],
                revoking: vec![],
            },
            Record::AssignmentGone { place: 3 },
        ];
        assert_eq!(read(&write(&records)), Ok(records.to_vec()));
    }
}
