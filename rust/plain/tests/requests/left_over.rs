//! Request 3, 'No slot left over': "an install is 1006 also when an existing slot has no owner while
//! some member subscribes to its topic. The first bad slot of either sort is reported."

use super::host::*;
use crate::coordinator::{Answer, Group, Heartbeat, Refusal};

const NOT_THERE: u16 = 1 << 7;

/// Topics 0, 2 and 15 with three, two and sixty-four partitions. AA* subscribes to 0 and 7, BB* to 0
/// and 15; so nobody subscribes to 2, and 7 is not there. G is 2.
fn three_topics() -> Host {
    let mut host = Host::new(0);
    for (number, count) in [(0, 3), (2, 2), (15, 64)] {
        host.topic(number, id(number as u8), count);
    }
    host.heartbeat(subscribing(join(AA, 0), 1 | NOT_THERE));
    host.heartbeat(subscribing(join(BB, 0), 1 | 1 << 15));
    host
}

fn subscribing(request: Heartbeat, topics: u16) -> Heartbeat {
    Heartbeat {
        subscription: Some(topics),
        ..request
    }
}

/// A target for them: what somebody subscribes to, and no more.
fn good() -> Vec<u8> {
    runs(&[(0..1, 0), (1..3, 1), (960..1_024, 1)])
}

fn without(slots: &[usize]) -> Vec<u8> {
    let none: Vec<(usize, u8)> = slots.iter().map(|&slot| (slot, NONE)).collect();
    with(&good(), &none)
}

#[test]
fn every_slot_that_is_forgotten_is_reported() {
    let mut host = three_topics();
    for slot in (0..3).chain(960..1_024) {
        let given = host.install(2, &without(&[slot]));
        assert_eq!(given.answer, bad_target(slot as u16));
    }
    assert_eq!(host.install(2, &good()).answer, Answer::Done);
    assert_eq!(host.group.target_of(1_023), Some(1));
}

#[test]
fn the_first_of_several_is_reported() {
    let mut host = three_topics();
    assert_eq!(host.install(2, &entries(&[])).answer, bad_target(0));
    assert_eq!(host.install(2, &without(&[1, 2])).answer, bad_target(1));
    let topic: Vec<usize> = (960..1_024).collect();
    assert_eq!(host.install(2, &without(&topic)).answer, bad_target(960));
    let given = host.install(2, &without(&[1_023, 2]));
    assert_eq!(given.answer, bad_target(2));
}

/// 01's sentence stays for "a slot nobody subscribes to"; it may not be given to anybody either.
#[test]
fn a_slot_that_nobody_subscribes_to_is_left_with_none() {
    let mut host = three_topics();
    let given = host.install(2, &with(&good(), &[(128, 1)]));
    assert_eq!(given.answer, bad_target(128));
    assert_eq!(host.install(2, &good()).answer, Answer::Done);
    // From now on AA* does.
    host.heartbeat(subscribing(ordinary(AA, 1, 0, None), 5));
    assert_eq!(host.install(3, &good()).answer, bad_target(128));
    let given = host.install(3, &with(&good(), &[(128, 0)]));
    assert_eq!(given.answer, bad_target(129));
    let given = host.install(3, &with(&good(), &[(128, 0), (129, 0)]));
    assert_eq!(given.answer, Answer::Done);
}

#[test]
fn a_slot_past_the_topics_count_is_not_left_over() {
    let mut host = three_topics();
    assert_eq!(host.install(2, &good()).answer, Answer::Done);
    host.topic(0, id(0), 4);
    assert_eq!(host.install(3, &good()).answer, bad_target(3));
    let given = host.install(3, &with(&good(), &[(3, 0)]));
    assert_eq!(given.answer, Answer::Done);
    host.topic(0, id(0), 64);
    let given = host.install(4, &with(&runs(&[(0..63, 0)]), &[(4, 1)]));
    assert_eq!(given.answer, bad_target(63));
}

#[test]
fn a_subscribed_topic_that_is_not_there_has_no_slots() {
    let mut host = three_topics();
    assert_eq!(host.install(2, &good()).answer, Answer::Done);
    host.topic(7, id(7), 1);
    assert_eq!(host.install(3, &good()).answer, bad_target(448));
    let given = host.install(3, &with(&good(), &[(448, 0)]));
    assert_eq!(given.answer, Answer::Done);
}

#[test]
fn one_subscriber_at_any_place_is_enough() {
    for place in 0..32 {
        let mut host = Host::new(0);
        host.topic(1, id(1), 2);
        for number in 0..32 {
            let topics = if number == place { 2 } else { 1 };
            host.heartbeat(subscribing(join(id(number), 0), topics));
        }
        assert_eq!(host.install(32, &entries(&[])).answer, bad_target(64));
        let forgotten = entries(&[(64, place)]);
        assert_eq!(host.install(32, &forgotten).answer, bad_target(65));
        host.heartbeat(leave(id(place), 0));
        let given = host.install(33, &entries(&[]));
        assert_eq!((given.answer, given.bytes), (Answer::Done, hex("06 21")));
    }
}

#[test]
fn with_nobody_there_nothing_is_left_over() {
    let mut host = three_topics();
    host.heartbeat(leave(AA, 0));
    host.heartbeat(leave(BB, 0));
    let given = host.install(4, &entries(&[]));
    assert_eq!((given.answer, given.bytes), (Answer::Done, hex("06 04")));
}

/// A slot left over and one that is bad in 01's sense, in either order.
#[test]
fn the_first_of_two_sorts_is_reported() {
    let faults = [
        (1, 32),  // above 31
        (1, 254), // above 31
        (1, 2),   // empty
        (3, 0),   // partition not there
        (64, 0),  // topic not there
        (960, 0), // doesn't subscribe
        (128, 1), // there, and nobody subscribes
    ];
    for (slot, place) in faults {
        for left in [0, 1_023] {
            let mut host = three_topics();
            let target = with(&without(&[left]), &[(slot, place)]);
            let given = host.install(2, &target);
            let first = slot.min(left) as u16;
            assert_eq!(given.answer, bad_target(first), "{slot} to {place}");
        }
    }
}

/// The rule is about installs: a target may have holes later, and then the next install is judged.
#[test]
fn holes_that_come_later_are_no_fault() {
    let mut host = three_topics();
    host.install(2, &good());
    host.heartbeat(ordinary(BB, 2, 0, None));
    host.topic(0, id(0), 4);
    host.heartbeat(leave(AA, 0));
    host.heartbeat(subscribing(ordinary(BB, 2, 0, None), 5));
    assert_eq!((host.group.epoch(), host.group.target_epoch()), (5, 2));
    let targets = [0, 1, 3, 128].map(|slot| host.group.target_of(slot));
    assert_eq!(targets, [None, Some(1), None, None]);
    assert_eq!(host.member(1).assigned.len(), 66);
    assert_eq!(host.install(5, &good()).answer, bad_target(0));
    let target = runs(&[(0..4, 1), (128..130, 1)]);
    assert_eq!(host.install(5, &target).answer, Answer::Done);
}

/// A leave at G's largest value leaves a hole, and T is still G.
#[test]
fn a_hole_at_the_end_is_for_good() {
    let end = i32::MAX;
    let mut host = Host::with(Group::at_epochs(0, end - 2, 0));
    host.topic(0, id(0), 2);
    host.heartbeat(join(AA, 0));
    host.heartbeat(join(BB, 0));
    host.install(end, &entries(&[(0, 0), (1, 1)]));
    host.heartbeat(leave(AA, 0));
    let already = refused(Refusal::Already);
    assert_eq!(host.install(end, &runs(&[(0..2, 1)])).answer, already);
    let given = host.heartbeat(ordinary(BB, end, 0, Some(&[])));
    assert_eq!((given.answer, given.slots), (assigned(end, 1), vec![1]));
}
