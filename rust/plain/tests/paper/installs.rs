//! Installs: what they write, and each reason of 01 for 1006, 1004 and 1005. Request 3's is tried in
//! requests/left_over.rs; a target here gives every slot that someone subscribes to.

use super::host::*;
use crate::coordinator::{Answer, Refusal};

/// Topics 0 and 1, with three and two partitions; AA* subscribes to 0, BB* to both. G is 2.
fn two_topics() -> Host {
    let mut host = Host::new(0);
    host.topic(0, [0x11; 16], 3);
    host.topic(1, [0x22; 16], 2);
    host.heartbeat(join(AA, 0));
    let mut both = join(BB, 0);
    both.subscription = Some(3);
    host.heartbeat(both);
    host
}

/// A target for them.
fn good() -> Vec<u8> {
    entries(&[(0, 0), (1, 1), (2, 1), (64, 1), (65, 1)])
}

#[test]
fn the_length_comes_first() {
    let mut host = two_topics();
    for length in [0, 1, 1_023, 1_025, 2_048] {
        let mut target = good();
        target.resize(length, NONE);
        assert_eq!(host.install(9, &target).answer, bad_target(65_535));
        assert_eq!(host.install(2, &target).answer, bad_target(65_535));
    }
    assert_eq!(host.install(2, &good()).answer, Answer::Done);
}

#[test]
fn then_the_epoch_then_whether_it_is_there_already() {
    let mut host = two_topics();
    let worst = vec![200; 1_024];
    for epoch in [1, 3, 0, -1, i32::MIN, i32::MAX] {
        assert_eq!(host.install(epoch, &worst).answer, refused(Refusal::Stale));
    }
    assert_eq!(host.install(2, &good()).answer, Answer::Done);
    assert_eq!(host.install(1, &worst).answer, refused(Refusal::Stale));
    assert_eq!(host.install(2, &worst).answer, refused(Refusal::Already));
}

#[test]
fn a_fresh_group_has_its_target_already() {
    let mut host = Host::new(0);
    assert_eq!(
        host.install(0, &entries(&[])).answer,
        refused(Refusal::Already)
    );
}

#[test]
fn each_bad_entry_is_reported_by_its_slot() {
    let mut host = two_topics();
    let cases = [
        (2, 32, 2),        // above 31
        (2, 254, 2),       // above 31
        (2, 2, 2),         // empty
        (1, 31, 1),        // empty
        (3, 0, 3),         // partition not there
        (66, 1, 66),       // partition not there
        (1_023, 1, 1_023), // topic not there
        (64, 0, 64),       // doesn't subscribe
    ];
    for (slot, place, reported) in cases {
        let given = host.install(2, &with(&good(), &[(slot, place)]));
        assert_eq!(given.answer, bad_target(reported), "slot {slot} to {place}");
    }
    let given = host.install(2, &good());
    assert_eq!(given.bytes, hex("07 00 01 00 07 01 04 01 01 3E 01 06 02"));
    assert_eq!(host.group.target_of(65), Some(1));
}

#[test]
fn the_first_bad_slot_is_reported() {
    let mut host = two_topics();
    let given = host.install(2, &with(&good(), &[(0, 1), (2, 7), (64, 0), (200, 40)]));
    assert_eq!(given.answer, bad_target(2));
}

#[test]
fn an_equal_target_writes_its_epoch_alone() {
    let mut host = after_p4();
    let mut subscribes = ordinary(AA, 1, 1_000, None);
    subscribes.subscription = Some(3);
    host.heartbeat(subscribes);
    let given = host.install(2, &entries(&[(0, 0), (1, 0), (2, 0)]));
    assert_eq!(given.bytes, hex("06 02"));
    assert_eq!(host.group.target_epoch(), 2);
}

#[test]
fn all_entries_are_judged_and_not_the_changed_ones_alone() {
    let mut host = after_p4();
    let mut drops = ordinary(AA, 1, 1_000, None);
    drops.subscription = Some(2);
    host.heartbeat(drops);
    let given = host.install(2, &entries(&[(0, 0), (1, 0), (2, 0)]));
    assert_eq!(given.answer, bad_target(0));
}

#[test]
fn an_install_moves_nothing_by_itself() {
    let mut host = after_p4();
    let before = host.member(0);
    host.heartbeat(join(BB, 1_000));
    let given = host.install(2, &runs(&[(0..3, 1)]));
    assert_eq!(given.answer, Answer::Done);
    assert_eq!(host.member(0), before);
    assert_eq!(host.member(1).assigned, []);
}
