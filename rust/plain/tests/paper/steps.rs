//! The three steps of an ordinary heartbeat, one test for each way through them.

use super::host::*;
use crate::coordinator::Refusal;

#[test]
fn a_changed_subscription_raises_g_and_is_stored() {
    let mut host = after_p4();
    let mut request = ordinary(AA, 1, 1_000, None);
    request.subscription = Some(0x8001);
    let given = host.heartbeat(request);
    assert_eq!(given.answer, assigned(1, 3));
    assert_eq!(given.bytes, hex("05 00 01 AA* AC 02 81 80 02 03 02"));
    assert_eq!(host.member(0).subscription, 0x8001);
    assert_eq!(host.group.epoch(), 2);
}

#[test]
fn a_changed_timeout_is_stored_and_raises_nothing() {
    let mut host = after_p4();
    let mut request = ordinary(AA, 1, 1_000, None);
    request.timeout = 1;
    let given = host.heartbeat(request);
    assert_eq!(given.bytes, hex("05 00 01 AA* 01 01"));
    assert_eq!((host.member(0).timeout, host.group.epoch()), (1, 1));
}

#[test]
fn what_is_given_and_the_same_changes_nothing() {
    let mut host = after_p4();
    let mut request = ordinary(AA, 1, 1_000, Some(&[0, 1, 2]));
    request.timeout = 300;
    request.subscription = Some(1);
    let given = host.heartbeat(request);
    assert_eq!((given.slots, given.bytes), (vec![0, 1, 2], vec![]));
    assert_eq!(host.group.epoch(), 1);
}

#[test]
fn step_1_happens_while_p_waits() {
    let mut host = after_p8();
    let mut request = ordinary(AA, 1, 2_000, None);
    request.timeout = 301;
    request.subscription = Some(0);
    let given = host.heartbeat(request);
    assert_eq!(given.answer, assigned(1, 2));
    assert_eq!(given.bytes, hex("05 00 01 AA* AD 02 00 03 03"));
    assert_eq!(host.member(0).revoking, [2]);
}

#[test]
fn the_target_stays_when_the_subscription_goes() {
    let mut host = Host::new(0);
    host.topic(0, [0x11; 16], 1);
    host.heartbeat(join(AA, 0));
    host.install(1, &entries(&[(0, 0)]));
    let mut request = ordinary(AA, 1, 0, None);
    request.subscription = Some(0);
    let given = host.heartbeat(request);
    assert_eq!(given.slots, [0]);
    assert_eq!(
        given.bytes,
        hex("05 00 01 AA* AC 02 00 03 02 08 00 01 01 00 00")
    );
}

#[test]
fn without_a_list_nothing_is_freed() {
    let mut host = after_p8();
    let given = host.heartbeat(ordinary(AA, 1, 2_000, None));
    assert_eq!((given.slots, given.bytes), (vec![0, 1], vec![]));
    assert_eq!(host.member(0).revoking, [2]);
}

#[test]
fn a_list_with_a_part_of_p_frees_nothing() {
    let mut host = after_p4();
    host.heartbeat(join(BB, 1_000));
    host.install(2, &entries(&[(0, 0), (1, 1), (2, 1)]));
    host.heartbeat(ordinary(AA, 1, 1_000, None));
    assert_eq!(host.member(0).revoking, [1, 2]);
    let given = host.heartbeat(ordinary(AA, 1, 1_000, Some(&[0, 2])));
    assert_eq!((given.answer, given.bytes), (assigned(1, 1), vec![]));
    assert_eq!(host.member(0).revoking, [1, 2]);
    assert_eq!(host.heartbeat(ordinary(BB, 2, 1_000, Some(&[]))).slots, []);
}

#[test]
fn p_is_freed_and_the_epoch_follows() {
    let mut host = after_p8();
    let given = host.heartbeat(ordinary(AA, 1, 2_100, Some(&[])));
    assert_eq!((given.answer, given.slots), (assigned(2, 2), vec![0, 1]));
    assert_eq!(given.bytes, hex("08 00 02 02 00 01 00"));
    let member = host.member(0);
    assert_eq!((member.revoking, member.revoked_at), (vec![], 2_000));
}

#[test]
fn freed_and_back_in_a_in_one_heartbeat() {
    let mut host = after_p8();
    host.topic(0, [0x11; 16], 4);
    host.install(3, &entries(&[(0, 0), (1, 0), (2, 0), (3, 1)]));
    let given = host.heartbeat(ordinary(AA, 1, 2_000, Some(&[0, 1])));
    assert_eq!((given.answer, given.slots), (assigned(3, 3), vec![0, 1, 2]));
    assert_eq!(given.bytes, hex("08 00 03 03 00 01 01 00"));
}

#[test]
fn freed_and_moved_anew_in_one_heartbeat() {
    let mut host = after_p8();
    host.topic(0, [0x11; 16], 4);
    host.install(3, &entries(&[(0, 0), (1, 1), (2, 1), (3, 0)]));
    let given = host.heartbeat(ordinary(AA, 1, 2_200, Some(&[0, 1])));
    assert_eq!((given.answer, given.slots), (assigned(1, 1), vec![0]));
    assert_eq!(given.bytes, hex("08 00 01 01 00 01 01"));
    let member = host.member(0);
    assert_eq!((member.revoking, member.revoked_at), (vec![1], 2_200));
    assert_eq!(host.heartbeat(ordinary(BB, 2, 2_200, Some(&[]))).slots, [2]);
}

#[test]
fn the_epoch_rises_although_a_slot_of_m_is_held_elsewhere() {
    let mut host = after_p4();
    host.heartbeat(join(BB, 1_000));
    host.install(2, &entries(&[(0, 1), (1, 1), (2, 1)]));
    host.topic(0, [0x11; 16], 4);
    host.install(3, &runs(&[(0..4, 1)]));
    let given = host.heartbeat(ordinary(BB, 2, 1_000, None));
    assert_eq!((given.answer, given.slots), (assigned(3, 1), vec![3]));
    assert_eq!(given.bytes, hex("08 01 03 01 03 00"));
}

#[test]
fn a_list_may_name_slots_of_p() {
    let mut host = after_p8();
    let given = host.heartbeat(ordinary(AA, 1, 2_000, Some(&[2])));
    assert_eq!(given.answer, assigned(1, 2));
    let given = host.heartbeat(ordinary(AA, 1, 2_000, Some(&[0, 3])));
    assert_eq!(given.answer, refused(Refusal::InvalidRequest));
}

#[test]
fn large_sets_take_two_byte_numbers() {
    let mut host = Host::new(0);
    host.topic(0, [0x11; 16], 64);
    host.topic(15, [0x22; 16], 64);
    let mut request = join(AA, 0);
    request.subscription = Some(0x8001);
    host.heartbeat(request);
    let given = host.install(1, &runs(&[(0..64, 0), (960..1_024, 0)]));
    let mut set = hex("80 01 00");
    set.extend([1; 63]);
    set.extend(hex("81 07"));
    set.extend([1; 63]);
    let expected = [hex("07 00"), set.clone(), hex("06 01")].concat();
    assert_eq!(given.bytes, expected);
    let given = host.heartbeat(ordinary(AA, 1, 0, None));
    assert_eq!(given.bytes, [hex("08 00 01"), set, hex("00")].concat());
    assert_eq!(given.slots.len(), 128);
    assert_eq!(given.slots.last(), Some(&1_023));
}
