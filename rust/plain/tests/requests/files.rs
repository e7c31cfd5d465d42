//! Request 1, the file: its heading, its lengths, its cuts, and what is handed back.

use super::host::*;
use super::story::*;
use crate::coordinator::journal::{self, Verdict, HEADING};
use crate::coordinator::Group;

/// Request 14's lines for a group: "place, epoch, sizes of A, P and target".
fn lines(group: &Group) -> Vec<String> {
    let targets: Vec<u8> = (0..1_024)
        .filter_map(|slot| group.target_of(slot))
        .collect();
    let line = |place: u8| {
        let member = group.member_at(place)?;
        let (epoch, held, giving) = (member.epoch, member.assigned.len(), member.revoking.len());
        let target = targets.iter().filter(|&&entry| entry == place).count();
        Some(format!("{place} {epoch} {held} {giving} {target}"))
    };
    (0..=255).filter_map(line).collect()
}

#[test]
fn p1_to_p11_read_back_are_request_14s_lines() {
    let story = Story::of_p11();
    let reading = journal::read(&story.file, READ_AT);
    assert_eq!(reading.verdict, Verdict::Whole);
    assert_eq!(reading.end, story.file.len());
    assert_eq!(lines(&reading.group), ["0 2 2 0 2", "1 2 1 0 1"]);
    let host = at_reading(picture(&story.host.group));
    assert_eq!(picture(&reading.group), host);
}

/// The file of P1 to P11, byte for byte: P7 and P9 wrote nothing.
#[test]
fn the_file_of_p1_to_p11() {
    let file = hex("47 52 4A 31 \
        13 04 00 11* 03 \
        1D 05 00 01 AA* AC 02 01 03 01 08 00 01 00 00 \
        08 07 00 03 00 01 01 06 01 \
        08 08 00 01 03 00 01 01 00 \
        1D 05 01 01 BB* AC 02 01 03 02 08 01 02 00 00 \
        0B 07 00 02 00 01 07 01 01 02 06 02 \
        08 08 00 01 02 00 01 01 02 \
        07 08 00 02 02 00 01 00 \
        06 08 01 02 01 02 00");
    assert_eq!(Story::of_p11().file, file);
}

/// "cut at any byte .., a file gives the group after the last good batch; of a cut one the torn tail
/// is handed back as a part of the caller's bytes."
#[test]
fn cut_at_any_byte() {
    let story = Story::of_p11();
    for cut in HEADING.len()..=story.file.len() {
        let file = &story.file[..cut];
        let reading = journal::read(file, READ_AT);
        let whole = story.ends.iter().rev().find(|(end, _)| *end <= cut);
        let (end, group) = whole.expect("the heading's end at least");
        assert_eq!(reading.end, *end, "cut at {cut}");
        assert_eq!(picture(&reading.group), *group, "cut at {cut}");
        if *end == cut {
            assert_eq!(reading.verdict, Verdict::Whole, "cut at {cut}");
        } else {
            is_torn(reading.verdict, &file[*end..]);
        }
    }
}

/// The tail is the caller's own bytes, not a copy.
fn is_torn(verdict: Verdict, expected: &[u8]) {
    let Verdict::Torn { tail } = verdict else {
        panic!("{verdict:?} is not torn");
    };
    assert!(std::ptr::eq(tail, expected), "{tail:?}, not {expected:?}");
}

/// "inside a heading right so far: a fresh group, all of it tail"; request 14: "0 for an empty input".
#[test]
fn a_cut_heading_is_all_tail() {
    let fresh = picture(&Group::new(READ_AT));
    for cut in 0..HEADING.len() {
        let file = &HEADING[..cut];
        let reading = journal::read(file, READ_AT);
        is_torn(reading.verdict, file);
        assert_eq!(reading.end, 0);
        assert_eq!(picture(&reading.group), fresh);
    }
    let reading = journal::read(&HEADING, READ_AT);
    assert_eq!((reading.verdict, reading.end), (Verdict::Whole, 4));
    assert_eq!(picture(&reading.group), fresh);
}

/// "and so is another heading, at 0", as soon as a byte of it is wrong.
#[test]
fn another_heading_is_refused_at_0() {
    let story = Story::of_p11();
    let fresh = picture(&Group::new(READ_AT));
    let others = (0..HEADING.len()).flat_map(|at| [1, 0x20, 0x80, 0xFF].map(|bits| (at, bits)));
    for (at, bits) in others {
        let mut file = story.file.clone();
        file[at] ^= bits;
        for file in [&file[..], &file[..4], &file[..=at]] {
            let reading = journal::read(file, READ_AT);
            assert_eq!(reading.verdict, Verdict::Refused { offset: 0 }, "{file:?}");
            assert_eq!(reading.end, 0);
            assert_eq!(picture(&reading.group), fresh);
        }
    }
    for heading in ["GRJ2", "GRJ0", "grj1", "\0GRJ", "1JRG"] {
        let reading = journal::read(heading.as_bytes(), READ_AT);
        assert_eq!(reading.verdict, Verdict::Refused { offset: 0 }, "{heading}");
    }
}

/// "a length of 0, above 4,096, unfinished after two bytes or not in fewest bytes is refused as soon
/// as read".
#[test]
fn a_bad_length_is_refused_as_soon_as_read() {
    let story = Story::of_p4();
    let (end, group) = story.last();
    let read = |length: &str| {
        let file = [&story.file[..], &hex(length)].concat();
        let reading = journal::read(&file, READ_AT);
        assert_eq!(reading.end, *end, "{length}");
        assert_eq!(picture(&reading.group), *group, "{length}");
        match reading.verdict {
            Verdict::Torn { tail } => assert_eq!(tail, hex(length)),
            Verdict::Refused { offset } => assert_eq!(offset, *end),
            Verdict::Whole => panic!("{length} is no batch"),
        }
        matches!(reading.verdict, Verdict::Refused { .. })
    };
    let bad = [
        "00",
        "00 01",
        "80 00",
        "FF 00",
        "81 20",
        "80 21",
        "FF 7F",
        "80 80",
        "81 80",
        "FF FF",
        "80 80 01",
        "81 80 00",
        "80 80 80 80 00",
    ];
    for length in bad {
        assert!(read(length), "{length}");
    }
    for length in ["01", "7F", "80", "FF", "80 01", "FF 1F", "80 20"] {
        assert!(!read(length), "{length}");
    }
}

/// Rubbish is only judged where all of its bytes are there.
#[test]
fn an_unfinished_batch_is_tail_whatever_is_in_it() {
    let story = Story::of_p4();
    let rubbish = hex("FF 00 FF 00");
    let whole = [&story.file[..], &[4], &rubbish[..]].concat();
    let end = story.file.len();
    for cut in end + 1..whole.len() {
        is_torn(
            journal::read(&whole[..cut], READ_AT).verdict,
            &whole[end..cut],
        );
    }
    story.refuses("FF 00 FF 00");
    // The largest length, with a byte too few and with all of them.
    let mut long = [&story.file[..], &[0x80, 0x20]].concat();
    long.resize(end + 2 + 4_095, 0xFF);
    is_torn(journal::read(&long, READ_AT).verdict, &long[end..]);
    long.push(0xFF);
    let reading = journal::read(&long, READ_AT);
    assert_eq!(reading.verdict, Verdict::Refused { offset: end });
}

/// What follows a refused batch is not looked at: here the heartbeat of P4 again.
#[test]
fn good_batches_after_a_refused_one_are_not_read() {
    let story = Story::of_p4();
    let (offset, group) = &story.ends[3];
    let wrong = framed(&hex("08 00 01 02 00 01 00"));
    let file = [&story.file[..*offset], &wrong, &story.file[*offset..]].concat();
    let reading = journal::read(&file, READ_AT);
    assert_eq!(reading.verdict, Verdict::Refused { offset: *offset });
    assert_eq!(picture(&reading.group), *group);
}

#[test]
fn a_group_read_back_goes_on() {
    let story = Story::of_p8();
    let reading = journal::read(&story.file, READ_AT);
    let mut host = Host::with(reading.group);
    let given = host.heartbeat(ordinary(AA, 1, READ_AT, Some(&[0, 1])));
    assert_eq!(given.bytes, hex("08 00 02 02 00 01 00"));
    // Nobody is overdue who was heard 44,999 ms before at the latest, and P was set at the reading.
    let reading = journal::read(&story.file, READ_AT);
    let mut host = Host::with(reading.group);
    assert_eq!(host.sweep(READ_AT + 299).bytes, []);
    assert_eq!(
        host.sweep(READ_AT + 300).bytes,
        hex("08 00 00 07 00 00 05 00 00 03 03")
    );
}

#[test]
fn a_frame_is_the_length_and_the_records() {
    let sizes = [
        (1, "01"),
        (127, "7F"),
        (128, "80 01"),
        (300, "AC 02"),
        (4_096, "80 20"),
    ];
    for (size, length) in sizes {
        let records: Vec<u8> = (0..size).map(|at| at as u8).collect();
        let expected = [hex(length), records.clone()].concat();
        let mut exact = vec![0x5A; expected.len()];
        assert_eq!(journal::frame(&records, &mut exact), Some(expected.len()));
        assert_eq!(exact, expected);
        let mut longer = vec![0x5A; expected.len() + 7];
        assert_eq!(journal::frame(&records, &mut longer), Some(expected.len()));
        assert_eq!(longer[..expected.len()], expected);
        assert_eq!(longer[expected.len()..], [0x5A; 7]);
        let mut short = vec![0x5A; expected.len() - 1];
        assert_eq!(journal::frame(&records, &mut short), None);
        assert!(short.iter().all(|&byte| byte == 0x5A));
    }
    let mut out = [0x5A; 5_000];
    assert_eq!(journal::frame(&[], &mut out), None);
    assert_eq!(journal::frame(&[3; 4_097], &mut out), None);
    assert_eq!(out, [0x5A; 5_000]);
}
