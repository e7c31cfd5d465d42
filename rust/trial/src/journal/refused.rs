//! Why a file was refused where it was, told from its bytes there.

use crate::data::ROOMY;
use crate::labels::labels;
use crate::reader::{read, Record};

labels! {
    /// Of a whole batch of records that no event would write: the kind of event that writes such
    /// records in that order.
    pub enum Cause {
        Heading = "another heading",
        LengthZero = "a length of 0",
        LengthAbove = "a length above 4,096",
        LengthUnfinished = "a length unfinished after two bytes",
        LengthNotFewest = "a length not in fewest bytes",
        NoRecords = "a batch that is no records",
        NoOrder = "records in an order of no event",
        Topic = "records as of a topic",
        Install = "records as of an install",
        Removal = "records as of a leave or sweep",
        Join = "records as of a join",
        Ordinary = "records as of an ordinary heartbeat",
    }
}

/// The cause of a refusal at the offset.
pub fn cause(file: &[u8], offset: usize) -> Cause {
    if offset == 0 {
        return Cause::Heading;
    }
    let rest = &file[offset..];
    let (start, length) = match *rest {
        [0, ..] => return Cause::LengthZero,
        [first, second, ..] if first > 127 => match second {
            0 => return Cause::LengthNotFewest,
            128.. => return Cause::LengthUnfinished,
            _ => (2, usize::from(first - 128) + 128 * usize::from(second)),
        },
        [first, ..] => (1, usize::from(first)),
        [] => return Cause::NoRecords,
    };
    if length > ROOMY {
        return Cause::LengthAbove;
    }
    cause_of_batch(&rest[start..start + length])
}

/// The kind of event whose records these look like.
pub fn cause_of_batch(batch: &[u8]) -> Cause {
    let Ok(records) = read(batch) else {
        return Cause::NoRecords;
    };
    let order: String = records.iter().map(letter).collect();
    match order.as_str() {
        "4" | "43" => Cause::Topic,
        "7M3A" => Cause::Join,
        "M3A" if ends_as_join(&records) => Cause::Join,
        "M" | "M3" | "MA" | "M3A" | "3" | "3A" | "A" => Cause::Ordinary,
        order if order.trim_start_matches('7') == "6" => Cause::Install,
        order if is_removal(order) => Cause::Removal,
        _ => Cause::NoOrder,
    }
}

fn letter(record: &Record) -> char {
    match record {
        Record::GroupEpoch(_) => '3',
        Record::Topic { .. } => '4',
        Record::Member { .. } => 'M',
        Record::MemberGone { .. } => 'm',
        Record::TargetEpoch(_) => '6',
        Record::Target { .. } => '7',
        Record::Assignment { .. } => 'A',
        Record::AssignmentGone { .. } => 'a',
    }
}

/// Whether E is the new G.
fn ends_as_join(records: &[Record]) -> bool {
    match records {
        [.., Record::GroupEpoch(raised), Record::Assignment { epoch, .. }] => raised == epoch,
        _ => false,
    }
}

fn is_removal(order: &str) -> bool {
    let gone = order.strip_suffix('3').unwrap_or(order);
    !gone.is_empty() && gone.replace("a7m", "").replace("am", "").is_empty()
}

#[cfg(test)]
mod tests {
    use super::*;

    fn of(bytes: &[u8]) -> Cause {
        cause(&[b"GRJ1", bytes].concat(), 4)
    }

    #[test]
    fn each_cause_is_told() {
        assert_eq!(cause(b"GRJ2", 0), Cause::Heading);
        assert_eq!(of(&[0]), Cause::LengthZero);
        assert_eq!(of(&[0x81, 0x20]), Cause::LengthAbove);
        assert_eq!(of(&[0x80, 0x21]), Cause::LengthAbove);
        assert_eq!(of(&[0x81, 0x80]), Cause::LengthUnfinished);
        assert_eq!(of(&[0x80, 0x00]), Cause::LengthNotFewest);
        assert_eq!(of(&[1, 9]), Cause::NoRecords);
        assert_eq!(of(&[4, 3, 1, 3, 2]), Cause::NoOrder);
        assert_eq!(of(&[2, 6, 1]), Cause::Install);
        assert_eq!(of(&[5, 7, 0, 0, 6, 1]), Cause::Install);
        assert_eq!(of(&[8, 8, 0, 0, 5, 0, 0, 3, 1]), Cause::Removal);
        assert_eq!(of(&[9, 8, 0, 0, 7, 0, 0, 5, 0, 0]), Cause::Removal);
        assert_eq!(of(&[3, 8, 0, 0]), Cause::NoOrder);
        assert_eq!(of(&[5, 8, 0, 1, 0, 0]), Cause::Ordinary);
        let mut join = vec![28, 5, 0, 1];
        join.extend([0xAA; 16]);
        join.extend([1, 1, 3, 1, 8, 0, 1, 0, 0]);
        assert_eq!(of(&join), Cause::Join);
        let mut long = vec![0x80, 1];
        long.resize(130, 0);
        assert_eq!(of(&long), Cause::NoRecords);
    }
}
