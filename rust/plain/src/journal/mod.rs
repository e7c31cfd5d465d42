//! Request 1 of 02, 'Read the journal back': the file, and the group that is read from it.
//!
//! A batch is not judged by running an event. `good` says of each kind of event, in closed form,
//! which records it writes, and `overlay` takes the records on. So this reader shares nothing with
//! one that finds the event again and runs it.

mod good;
mod overlay;
mod record;

use crate::group::Group;
use crate::limits::LARGEST_BATCH;
use crate::records::{Records, MORE};

/// "the fixed bytes `GRJ1`".
pub const HEADING: [u8; 4] = *b"GRJ1";

/// The group after the last good batch, with every tick the tick of reading.
pub struct Reading<'a> {
    pub group: Group,
    /// Where the good part ends, and the next batch is to stand.
    pub end: usize,
    pub verdict: Verdict<'a>,
}

#[derive(Clone, Copy, PartialEq, Eq, Debug)]
pub enum Verdict<'a> {
    Whole,
    /// "the torn tail is handed back as a part of the caller's bytes"; it begins at `end`.
    Torn {
        tail: &'a [u8],
    },
    /// "refused, with the offset of its length"; "another heading, at 0". It is `end`.
    Refused {
        offset: usize,
    },
}

/// "for each event that wrote records their total length as a number in groups of seven bits, and
/// the records": the bytes that `out` now begins with. None, and nothing written, where they don't
/// fit `out`, and where `records` is empty or longer than any event's.
pub fn frame(records: &[u8], out: &mut [u8]) -> Option<usize> {
    if !is_length(records.len()) {
        return None;
    }
    let mut framed = Records::new();
    framed.number(records.len() as u32);
    framed.append(records);
    framed.store(out).ok()
}

pub fn read(bytes: &[u8], tick: u32) -> Reading<'_> {
    let mut group = Group::new(tick);
    let (end, verdict) = if bytes.starts_with(&HEADING) {
        read_batches(&mut group, bytes)
    } else if HEADING.starts_with(bytes) {
        // "cut .. inside a heading right so far: a fresh group, all of it tail".
        (0, Verdict::Torn { tail: bytes })
    } else {
        (0, Verdict::Refused { offset: 0 })
    };
    Reading {
        group,
        end,
        verdict,
    }
}

/// Whether some event would write the batch for this group, "whatever the ticks of both". Then the
/// group is the one after it, with every tick the tick of reading; otherwise it stays as it is.
pub fn read_batch(group: &mut Group, tick: u32, batch: &[u8]) -> bool {
    let is_good = take_batch(group, batch);
    if is_good {
        group.set_every_tick(tick);
    }
    is_good
}

/// As `read_batch`, for a group whose ticks are all the tick of reading.
fn take_batch(group: &mut Group, batch: &[u8]) -> bool {
    let Some(records) = record::read(batch) else {
        return false;
    };
    let is_good = group.some_event_writes(&records);
    if is_good {
        group.take_on(records);
    }
    is_good
}

fn read_batches<'a>(group: &mut Group, bytes: &'a [u8]) -> (usize, Verdict<'a>) {
    let mut end = HEADING.len();
    loop {
        let rest = &bytes[end..];
        let refused = Verdict::Refused { offset: end };
        if rest.is_empty() {
            return (end, Verdict::Whole);
        }
        // "a length of 0, above 4,096, unfinished after two bytes or not in fewest bytes is refused
        // as soon as read".
        let (start, length) = match length(rest) {
            Length::Unfinished => return (end, Verdict::Torn { tail: rest }),
            Length::Bad => return (end, refused),
            Length::Good { bytes, length } => (bytes, length),
        };
        let Some(batch) = rest.get(start..start + length) else {
            return (end, Verdict::Torn { tail: rest });
        };
        if !take_batch(group, batch) {
            return (end, refused);
        }
        end += start + length;
    }
}

#[derive(PartialEq, Eq, Debug)]
enum Length {
    /// More bytes could still make it good.
    Unfinished,
    Bad,
    /// The bytes it takes, and the bytes of the records that follow.
    Good {
        bytes: usize,
        length: usize,
    },
}

/// The length at the start of `rest`, which has at least one byte.
fn length(rest: &[u8]) -> Length {
    let (bytes, length) = match *rest {
        [only, ..] if only < MORE => (1, usize::from(only)),
        [] | [_] => return Length::Unfinished,
        // Unfinished after two bytes, or not in fewest bytes.
        [_, second, ..] if second >= MORE || second == 0 => return Length::Bad,
        [first, second, ..] => (2, usize::from(first - MORE) + (usize::from(second) << 7)),
    };
    if is_length(length) {
        Length::Good { bytes, length }
    } else {
        Length::Bad
    }
}

fn is_length(length: usize) -> bool {
    (1..=LARGEST_BATCH).contains(&length)
}

#[cfg(test)]
mod tests {
    use super::*;

    fn good(bytes: usize, length: usize) -> Length {
        Length::Good { bytes, length }
    }

    #[test]
    fn a_length_is_1_to_4096_in_the_fewest_bytes() {
        assert_eq!(length(&[0x00]), Length::Bad);
        assert_eq!(length(&[0x01]), good(1, 1));
        assert_eq!(length(&[0x7F, 0x80]), good(1, 127));
        assert_eq!(length(&[0x80]), Length::Unfinished);
        assert_eq!(length(&[0x80, 0x00]), Length::Bad);
        assert_eq!(length(&[0xFF, 0x00]), Length::Bad);
        assert_eq!(length(&[0x80, 0x01]), good(2, 128));
        assert_eq!(length(&[0x80, 0x20]), good(2, 4_096));
        assert_eq!(length(&[0x81, 0x20]), Length::Bad);
        assert_eq!(length(&[0xFF, 0x7F]), Length::Bad);
        assert_eq!(length(&[0x81, 0x80]), Length::Bad);
        assert_eq!(length(&[0x80, 0x80, 0x01]), Length::Bad);
    }

    #[test]
    fn every_length_that_is_framed_is_read() {
        for size in 1..=LARGEST_BATCH {
            let mut out = [0; LARGEST_BATCH + 2];
            let records = vec![9; size];
            let written = frame(&records, &mut out).unwrap();
            assert_eq!(length(&out), good(written - size, size));
        }
    }

    const AT_END: i32 = i32::MAX;

    /// AA* alone, with a target that it holds, at G's largest value.
    fn at_the_end() -> Group {
        let mut group = Group::at_epochs(0, AT_END - 1, 0);
        let largest = [255, 255, 255, 255, 7];
        let id = [0xAA; 16];
        let batches = [
            [&[4, 0][..], &[0x11; 16], &[2]].concat(),
            [
                &[5, 0, 1][..],
                &id,
                &[1, 1, 3],
                &largest,
                &[8, 0],
                &largest,
                &[0, 0],
            ]
            .concat(),
            [&[7, 0, 1, 0, 6][..], &largest].concat(),
            [&[8, 0][..], &largest, &[1, 0, 0]].concat(),
        ];
        for batch in batches {
            assert!(read_batch(&mut group, 9, &batch), "{batch:02X?}");
        }
        assert_eq!((group.epoch(), group.last_tick()), (AT_END, 9));
        group
    }

    fn is_read(batch: &[u8]) -> bool {
        let mut group = at_the_end();
        let before = group.clone();
        let is_read = read_batch(&mut group, 10, batch);
        assert_eq!(is_read, group != before);
        is_read
    }

    /// "At G's largest value a leave or sweep still removes and G stays", and nothing raises it.
    #[test]
    fn at_the_largest_epoch() {
        let beyond = [3, 128, 128, 128, 128, 8];
        let gone = [8, 0, 0, 7, 0, 0, 5, 0, 0];
        assert!(is_read(&gone));
        assert!(!is_read(&[&gone[..], &beyond].concat()));
        assert!(!is_read(&[&gone[..], &[3, 255, 255, 255, 255, 7]].concat()));
        // A timeout is stored, another subscription is not.
        let stored = |after: &[u8]| [&[5, 0, 1][..], &[0xAA; 16], after].concat();
        assert!(is_read(&stored(&[2, 1])));
        assert!(!is_read(&stored(&[1, 2])));
        assert!(!is_read(&[&stored(&[1, 2])[..], &beyond].concat()));
        // Nobody subscribes to topic 1.
        assert!(is_read(&[&[4, 1][..], &[0x22; 16], &[2]].concat()));
        assert!(!is_read(&[&[4, 0][..], &[0x11; 16], &[3]].concat()));
        // T is G.
        assert!(!is_read(&[6, 255, 255, 255, 255, 7]));
    }
}
