//! "An install is 1006 also when an existing slot has no owner while some member subscribes to its
//! topic. The first bad slot of either sort is reported." Through the binding, and in C.

use super::c_compiler::{output_in, Language};
use crate::{Answer, Group, Heartbeat, Refusal};

const NOBODY: u8 = 255;

/// With these topics, by number and partitions, and a member at each place from 0 on with its
/// subscription.
fn group(topics: &[(u8, u8)], subscriptions: &[u16]) -> Group {
    let (mut group, mut records) = (Group::new(1_000), [0; 4_096]);
    for &(number, count) in topics {
        let made = group.topic(number.into(), [number + 1; 16], count.into(), &mut records);
        assert_eq!(made.answer, Answer::Done);
    }
    for (name, &subscription) in (1..).zip(subscriptions) {
        let join = Heartbeat {
            id: [name; 16],
            epoch: 0,
            tick: 1_000,
            timeout: 300,
            subscription: Some(subscription),
            owned: Some(&[]),
        };
        let joined = group.heartbeat(&join, &mut records, &mut []);
        assert!(joined.written > 0);
    }
    group
}

/// The answer to a target for the group's epoch; a refusal leaves every field of the group.
fn install(group: &Group, entries: &[u8]) -> Answer {
    let mut after = group.clone();
    let reply = after.install(group.epoch(), entries, &mut [0; 4_096]);
    match reply.answer {
        Answer::Refused(_) => assert!(after == *group && reply.written == 0),
        _ => assert!((0..1_024).all(|slot| after.target_of(slot) == named(entries, slot))),
    }
    reply.answer
}

fn named(entries: &[u8], slot: u16) -> Option<u8> {
    Some(entries[usize::from(slot)]).filter(|&place| place != NOBODY)
}

fn bad(slot: u16) -> Answer {
    Answer::Refused(Refusal::BadTarget { slot })
}

/// The slots to one place, and all others to nobody.
fn given(slots: impl IntoIterator<Item = u16>, place: u8) -> [u8; 1_024] {
    let mut entries = [NOBODY; 1_024];
    for slot in slots {
        entries[usize::from(slot)] = place;
    }
    entries
}

/// Of the group's first slot, of its last, and of every one between them.
#[test]
fn any_slot_that_is_left_over_is_reported() {
    // Nobody subscribes to topic 1, and there is no topic 2.
    let group = group(&[(0, 3), (1, 2), (7, 2), (15, 64)], &[0x8085]);
    let slots = || (0..3).chain(448..450).chain(960..1_024);
    for slot in slots() {
        let but_one = given(slots().filter(|&other| other != slot), 0);
        assert_eq!(install(&group, &but_one), bad(slot));
        let before = given(slots().filter(|&other| other < slot), 0);
        assert_eq!(install(&group, &before), bad(slot));
    }
    assert_eq!(install(&group, &given(slots(), 0)), Answer::Done);
}

/// The slot before a topic's end must have an owner, and the one behind it may have none.
#[test]
fn at_every_count() {
    for count in 1..=64 {
        let group = group(&[(0, count)], &[1]);
        let count = u16::from(count);
        assert_eq!(install(&group, &given(0..count, 0)), Answer::Done);
        assert_eq!(install(&group, &given(0..count - 1, 0)), bad(count - 1));
        assert_eq!(install(&group, &given(0..count + 1, 0)), bad(count));
    }
}

/// "but for a slot nobody subscribes to".
#[test]
fn of_every_topic() {
    for number in 0..16 {
        let topic = [(number, 1)];
        let first = 64 * u16::from(number);
        let nothing = [NOBODY; 1_024];
        assert_eq!(
            install(&group(&topic, &[1 << number]), &nothing),
            bad(first)
        );
        assert_eq!(
            install(&group(&topic, &[!(1 << number)]), &nothing),
            Answer::Done
        );
        // No topic, and so no slot, is what they subscribe to.
        assert_eq!(install(&group(&[], &[1 << number]), &nothing), Answer::Done);
    }
}

/// "some member subscribes": whichever it is, and as long as it is one.
#[test]
fn at_every_place() {
    for place in 0..32 {
        let mut subscriptions = [2; 32];
        subscriptions[place] = 1;
        let mut group = group(&[(0, 1)], &subscriptions);
        assert_eq!(install(&group, &[NOBODY; 1_024]), bad(0));
        assert_eq!(install(&group, &given([0], place as u8)), Answer::Done);
        let leave = Heartbeat {
            id: [place as u8 + 1; 16],
            epoch: -1,
            tick: 1_000,
            timeout: -1,
            subscription: None,
            owned: None,
        };
        let left = group.heartbeat(&leave, &mut [0; 4_096], &mut []);
        assert_eq!(left.answer, Answer::Left);
        assert_eq!(install(&group, &[NOBODY; 1_024]), Answer::Done);
    }
}

/// One slot left over and one given away wrongly, in either order.
#[test]
fn the_first_bad_slot_of_either_sort_is_reported() {
    let group = group(&[(0, 3), (1, 3)], &[1, 2]);
    let with = |changes: &[(u16, u8)]| {
        let mut entries = given(0..3, 0);
        entries[64..67].fill(1);
        for &(slot, place) in changes {
            entries[usize::from(slot)] = place;
        }
        install(&group, &entries)
    };
    assert_eq!(with(&[]), Answer::Done);
    for wrong in [32, 254, 2, 1] {
        assert_eq!(with(&[(1, NOBODY), (2, wrong)]), bad(1));
        assert_eq!(with(&[(1, wrong), (2, NOBODY)]), bad(1));
    }
    // Slot 3 does not exist.
    assert_eq!(with(&[(2, NOBODY), (3, 0)]), bad(2));
    assert_eq!(with(&[(3, 0), (64, NOBODY)]), bad(3));
    assert_eq!(with(&[(66, NOBODY), (1_023, 1)]), bad(66));
}

/// After 1004 and 1005, and before 1003.
#[test]
fn its_place_in_the_table() {
    let with_target = || {
        let mut group = group(&[(0, 3)], &[1]);
        let done = group.install(1, &given(0..3, 0), &mut [0; 64]);
        assert_eq!(done.answer, Answer::Done);
        group
    };
    let refusal = |mut group: Group, epoch, records: &mut [u8]| {
        group.install(epoch, &given(0..2, 0), records).answer
    };
    let (stale, already) = (Refusal::Stale, Refusal::Already);
    assert_eq!(refusal(with_target(), 2, &mut []), Answer::Refused(stale));
    assert_eq!(refusal(with_target(), 1, &mut []), Answer::Refused(already));
    assert_eq!(refusal(group(&[(0, 3)], &[1]), 1, &mut []), bad(2));
    let short = group(&[(0, 3)], &[1]).install(1, &given(0..3, 0), &mut [0; 7]);
    assert_eq!(short.answer, Answer::Refused(Refusal::Room));
}

const PRINTED: &str = "\
the first slot left over: 1006, slot 0, group as it was
one in the middle left over: 1006, slot 449, group as it was
the last slot left over: 1006, slot 1023, group as it was
left over, then to an empty place: 1006, slot 1, group as it was
to an empty place, then left over: 1006, slot 1, group as it was
none left over: 0, slot 65535, group changed
nobody subscribes: 0, slot 65535, group changed
journal: verdict 0, end 62, T 1, slot 2 to 255
by batches: verdict 0, T 1, slot 2 to 255
slot 2 left over again: 1006, slot 2, group as it was
slot 2 given: 0, slot 65535, group changed
";

#[test]
fn in_c() {
    for language in [Language::C99, Language::C11, Language::Cpp17] {
        assert_eq!(output_in(language, "left_over"), PRINTED);
    }
}
