//! A refused event leaves the group as it was, field by field: every refusal of 01's table, of every
//! function that gives it.

use super::by_events::{events, target};
use crate::ffi::{self, Group, Id, Reply, Request};
use crate::ids;

const STRANGER: [u8; 16] = [0x99; 16];

fn refuses(group: &Group, number: u32, event: impl Fn(&mut Group) -> Reply) {
    let mut after = group.clone();
    assert_eq!(event(&mut after).number, number);
    assert!(after == *group, "{number} changed the group");
}

fn with_id(group: &Group, place: usize, id: [u8; 16]) -> Group {
    let mut group = group.clone();
    for (column, word) in group.member_ids.iter_mut().zip(ids::words(id)) {
        column[place] = word;
    }
    group
}

/// From the member at place 0, and right.
fn beat(group: &Group) -> Request {
    Request {
        id: ids::of(group.member_ids.map(|column| column[0])).expect("a member"),
        epoch: group.member_epochs[0] as i32,
        tick: group.tick,
        timeout: -1,
        has_subscription: false,
        subscription: 0,
        has_list: false,
    }
}

/// From somebody who is no member, and right.
fn join(group: &Group) -> Request {
    Request {
        id: STRANGER,
        epoch: 0,
        timeout: 300,
        has_subscription: true,
        has_list: true,
        ..beat(group)
    }
}

fn full(group: &Group) -> Group {
    with_id(group, 31, [0x77; 16])
}

fn at_the_end(group: &Group) -> Group {
    Group {
        epoch: i32::MAX as u32,
        ..group.clone()
    }
}

#[test]
fn of_a_heartbeat() {
    let group = events().value;
    let refuses = |group: &Group, number, request: fn(&Group) -> Request, owned: &[u16]| {
        refuses(group, number, |group| {
            let request = request(group);
            ffi::heartbeat(group, &request, owned, &mut [], &mut [])
        });
    };
    let early = |group: &Group| Request {
        tick: group.tick - 1,
        ..beat(group)
    };
    let nobodys = |group: &Group| Request {
        id: [0; 16],
        ..beat(group)
    };
    let strange = |group: &Group| Request {
        id: STRANGER,
        ..beat(group)
    };
    let fenced = |group: &Group| Request {
        epoch: 1,
        ..beat(group)
    };
    let listing = |group: &Group| Request {
        has_list: true,
        ..beat(group)
    };
    refuses(&group, 1001, early, &[]);
    refuses(&group, 42, nobodys, &[]);
    refuses(&group, 25, strange, &[]);
    refuses(&full(&group), 81, join, &[]);
    refuses(&group, 110, fenced, &[]);
    refuses(&group, 42, listing, &[1_023]);
    refuses(&at_the_end(&group), 1002, join, &[]);
    refuses(&group, 1003, join, &[]);
    refuses(&group, 1003, beat, &[]);
}

#[test]
fn of_a_sweep() {
    let group = events().value;
    let at = |tick| move |group: &mut Group| ffi::sweep(group, tick, &mut []);
    refuses(&group, 1001, at(group.tick - 1));
    refuses(&group, 1003, at(group.tick + 45_000));
}

#[test]
fn of_a_topic() {
    let group = events().value;
    let raised_to = |count| {
        move |group: &mut Group| {
            let bytes = group.topic_ids[0];
            ffi::set_topic(group, 0, Id { bytes }, count, &mut [])
        }
    };
    refuses(&group, 1007, raised_to(65));
    refuses(&at_the_end(&group), 1002, raised_to(64));
    refuses(&group, 1003, raised_to(64));
}

#[test]
fn of_an_install() {
    let group = events().value;
    let with_target = Group {
        target_epoch: group.epoch,
        ..group.clone()
    };
    let epoch = group.epoch as i32;
    let of = |epoch, entries| move |group: &mut Group| ffi::install(group, epoch, entries, &mut []);
    let target = target();
    refuses(&group, 1006, of(epoch, &[]));
    refuses(&group, 1004, of(epoch - 1, &[255; 1_024]));
    refuses(&with_target, 1005, of(epoch, &[255; 1_024]));
    refuses(&group, 1006, of(epoch, &[31; 1_024]));
    refuses(&group, 1006, of(epoch, &[255; 1_024]));
    refuses(&group, 1003, of(epoch, &target));
}

/// A batch that no event would write for this group, and one that is cut.
#[test]
fn of_a_batch() {
    let group = events().value;
    let topic = [&[4, 0][..], &group.topic_ids[0], &[64, 3, 34]].concat();
    let batches = [
        &[][..],
        &[6, 34],
        &topic[..topic.len() - 1],
        &[&topic[..], &[3, 35]].concat(),
        &[0; 4_097],
    ];
    for batch in batches {
        let mut after = group.clone();
        assert!(!ffi::read_batch(&mut after, group.tick + 9, batch));
        assert!(after == group, "{batch:02X?} changed the group");
    }
    let mut after = group.clone();
    assert!(ffi::read_batch(&mut after, group.tick + 9, &topic));
    assert_eq!((after.epoch, after.topic_counts[0]), (34, 64));
}

/// A change in a place that is free shows in no function of a group, and in its value.
#[test]
fn what_nothing_shows_is_compared_too() {
    let mut group = events();
    let before = group.clone();
    group.value.heard[31] += 1;
    assert!(group != before);
    assert_eq!(group.member_at(31), None);
}
