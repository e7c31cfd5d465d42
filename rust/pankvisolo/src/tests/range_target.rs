//! "For each topic, take its subscribers in rising order of ID bytes; n partitions over k subscribers,
//! the first n mod k get one more than the rest, each a run of neighbours, in order. With k = 0 none
//! are given." Through the binding, of groups too that no event makes, and in C.

use super::by_events::events;
use super::c_compiler::{output_in, Language};
use crate::ffi::{self, Group, NO_PLACE, PLACES, SLOTS};
use crate::{ids, Id};

/// With these members at the places from 0 on, all of whom subscribe to topic 0 alone.
fn group(members: &[Id], count: u8) -> Group {
    let mut group = ffi::fresh(1_000);
    group.epoch = 7;
    group.topic_ids[0] = [0x11; 16];
    group.topic_counts[0] = count;
    for (place, &id) in members.iter().enumerate() {
        put_id(&mut group, place, id);
        group.subscriptions[place] = 1;
    }
    group
}

fn put_id(group: &mut Group, place: usize, id: Id) {
    for (column, word) in group.member_ids.iter_mut().zip(ids::words(id)) {
        column[place] = word;
    }
}

/// Of topic 0; no other is given to anybody.
fn owners(group: &Group) -> Vec<u8> {
    let target = ffi::range_target(group);
    assert_eq!(target[64..], [NO_PLACE; SLOTS - 64]);
    target[..64].to_vec()
}

/// The first partitions to these places, and the others to nobody.
fn padded(places: &[u8]) -> Vec<u8> {
    let mut owners = places.to_vec();
    owners.resize(64, NO_PLACE);
    owners
}

/// How many come before the owner of a partition: those with one more have the first partitions.
fn rank(partition: usize, count: usize, subscribers: usize) -> usize {
    let (less, longer) = (count / subscribers, count % subscribers);
    let longer_end = longer * (less + 1);
    match partition.checked_sub(longer_end) {
        None => partition / (less + 1),
        Some(behind) => longer + behind / less,
    }
}

#[test]
fn every_count_over_every_number_of_subscribers() {
    // No two places have the same, and neither do they rise nor fall.
    let id = |place: usize| [(place * 13 % PLACES) as u8 + 1; 16];
    for subscribers in 1..=PLACES {
        let members: Vec<Id> = (0..subscribers).map(id).collect();
        let mut order: Vec<u8> = (0..subscribers as u8).collect();
        order.sort_by_key(|&place| id(place.into()));
        for count in 1..=64 {
            let of_partition = |partition| order[rank(partition, count, subscribers)];
            let places: Vec<u8> = (0..count).map(of_partition).collect();
            let found = owners(&group(&members, count as u8));
            assert_eq!(found, padded(&places), "{count} over {subscribers}");
        }
    }
}

/// The first byte in which two IDs differ decides, whatever is behind it.
#[test]
fn every_byte_of_an_id_counts() {
    for at in 0..16 {
        for (low, high) in [(0x00, 0x01), (0x7F, 0x80), (0xFE, 0xFF)] {
            let (mut first, mut second) = ([0x80; 16], [0x80; 16]);
            (first[at], second[at]) = (low, high);
            first[at + 1..].fill(0xFF);
            second[at + 1..].fill(0x00);
            assert_eq!(owners(&group(&[first, second], 1)), padded(&[0]), "{at}");
            assert_eq!(owners(&group(&[second, first], 1)), padded(&[1]), "{at}");
        }
    }
}

/// No group of events has two members with one ID.
#[test]
fn members_with_one_id_go_by_place() {
    let same = group(&[[5; 16], [3; 16], [5; 16], [3; 16]], 7);
    assert_eq!(owners(&same), padded(&[1, 1, 3, 3, 0, 0, 2]));
}

/// A topic has 64 slots, whatever its count says; no group of events has such a count.
#[test]
fn a_count_above_64_counts_as_64() {
    for count in [64, 65, 128, 255] {
        let places = [[1; 32], [0; 32]].concat();
        assert_eq!(owners(&group(&[[9; 16], [8; 16]], count)), places);
    }
}

/// A place is free where its ID is, whatever its other columns say.
#[test]
fn a_free_place_subscribes_to_nothing() {
    let mut one = group(&[[9; 16], [8; 16], [7; 16]], 3);
    put_id(&mut one, 1, [0; 16]);
    assert_eq!(owners(&one), padded(&[2, 2, 0]));
    one.subscriptions = [0xFFFF; PLACES];
    one.member_epochs = [7; PLACES];
    assert_eq!(owners(&one), padded(&[2, 2, 0]));
    put_id(&mut one, 0, [0; 16]);
    put_id(&mut one, 2, [0; 16]);
    assert_eq!(owners(&one), padded(&[]));
}

/// With something in every field, and every field that has no say in it changed.
#[test]
fn nothing_counts_but_topics_subscriptions_and_ids() {
    let before = events().value;
    let target = ffi::range_target(&before);
    let mut group = before.clone();
    assert_eq!(ffi::range_target(&group), target);
    assert!(group == before, "it changed the group");

    (group.epoch, group.target_epoch, group.tick) = (1, 0, 2);
    group.topic_ids.reverse();
    for column in [
        &mut group.member_epochs,
        &mut group.timeouts,
        &mut group.heard,
        &mut group.revoked_at,
    ] {
        column.reverse();
    }
    group.target.reverse();
    group.holder.reverse();
    group.waiting = group.waiting.map(|waiting| !waiting);
    assert_eq!(ffi::range_target(&group), target);
}

/// "The result must always be accepted by an install for the current epoch if T is below G and there
/// is room for the records." A refusal leaves every field of the group.
#[test]
fn an_install_of_it() {
    let before = events().value;
    let target = ffi::range_target(&before);
    let epoch = before.epoch as i32;
    let mut records = [0; 4_096];
    let install = |group: &mut Group, records: &mut [u8]| {
        let reply = ffi::install(group, epoch, &target, records);
        (reply.number, reply.written)
    };
    let mut group = before.clone();
    let (number, written) = install(&mut group, &mut records);
    assert_eq!((number, group.target_epoch), (0, before.epoch));
    assert_eq!(group.target, target);

    let mut group = before.clone();
    assert_eq!(install(&mut group, &mut records[..written - 1]), (1003, 0));
    assert!(group == before, "1003 changed the group");
    assert_eq!(install(&mut group, &mut records[..written]), (0, written));
    let with_target = group.clone();
    assert_eq!(install(&mut group, &mut records), (1005, 0));
    assert!(group == with_target, "1005 changed the group");
}

const PRINTED: &str = "\
a fresh group: 0-1023:255
  group as it was, bytes around as they were
  install, room 4096: 1005, bytes 0, group as it was, T 0
nobody subscribes: 0-1023:255
  group as it was, bytes around as they were
7 over 3, and 64 over 1: 0-2:2 3-4:1 5-6:0 7-959:255 960-1023:3
  group as it was, bytes around as they were
  install, room 85: 1003, bytes 0, group as it was, T 0
  install, room 86: 0, bytes 86, group changed, T 4
  install, room 4096: 1005, bytes 0, group as it was, T 4
one has left: 0-3:1 4-6:0 7-959:255 960-1023:3
  group as it was, bytes around as they were
  install, room 4096: 0, bytes 15, group changed, T 5
";

#[test]
fn in_c() {
    for language in [Language::C99, Language::C11, Language::Cpp17] {
        assert_eq!(output_in(language, "range_target"), PRINTED);
    }
}
