//! Joining, joining again, leaving; places.

use super::host::*;
use crate::coordinator::{Answer, Member, Refusal};

fn full() -> Host {
    let mut host = Host::new(0);
    for number in 0..32 {
        let given = host.heartbeat(join(id(number), 0));
        assert_eq!(given.answer, assigned(i32::from(number) + 1, 0));
    }
    host
}

#[test]
fn the_32nd_joins_and_the_33rd_gets_81() {
    let mut host = full();
    let given = host.heartbeat(join(id(32), 0));
    assert_eq!(given.answer, refused(Refusal::GroupMaxSizeReached));
    assert_eq!(host.member(31).id, id(31));
}

#[test]
fn a_rejoin_of_a_full_group_is_not_81() {
    let mut host = full();
    assert_eq!(host.heartbeat(join(id(7), 0)).answer, assigned(33, 0));
    assert_eq!(host.member(7).epoch, 33);
}

#[test]
fn a_joiner_takes_the_lowest_free_place() {
    let mut host = full();
    for number in [20, 3, 9] {
        assert_eq!(host.heartbeat(leave(id(number), 0)).answer, Answer::Left);
    }
    for (number, place) in [(40, 3), (41, 9), (42, 20)] {
        host.heartbeat(join(id(number), 0));
        assert_eq!(host.member(place).id, id(number));
    }
}

#[test]
fn a_joiner_is_as_01_says() {
    let mut host = Host::new(1_000);
    host.heartbeat(join(AA, 1_234));
    let joined = Member {
        id: AA,
        epoch: 1,
        subscription: 1,
        timeout: 300,
        assigned: vec![],
        revoking: vec![],
        heard: 1_234,
        revoked_at: 1_234,
    };
    assert_eq!(host.member(0), joined);
}

#[test]
fn a_rejoin_keeps_the_place_and_empties_a_p_and_target() {
    let mut host = after_p8();
    let given = host.heartbeat(join(AA, 2_500));
    assert_eq!(given.answer, assigned(3, 0));
    let bytes = "07 00 00 05 00 01 AA* AC 02 01 03 03 08 00 03 00 00";
    assert_eq!(given.bytes, hex(bytes));
    let member = host.member(0);
    assert_eq!((member.assigned, member.revoking), (vec![], vec![]));
    assert_eq!(
        (member.epoch, member.heard, member.revoked_at),
        (3, 2_500, 2_500)
    );
    assert_eq!(host.group.target_of(0), None);
    assert_eq!(host.group.target_of(2), Some(1));
    // What it held is free at once, P too.
    let given = host.heartbeat(ordinary(BB, 2, 2_500, Some(&[])));
    assert_eq!(given.slots, [2]);
}

#[test]
fn a_rejoin_with_an_empty_target_writes_no_7() {
    let mut host = Host::new(0);
    host.heartbeat(join(AA, 0));
    let given = host.heartbeat(join(AA, 0));
    assert_eq!(
        given.bytes,
        hex("05 00 01 AA* AC 02 01 03 02 08 00 02 00 00")
    );
}

#[test]
fn a_joiners_epoch_is_above_t_until_the_next_install() {
    let mut host = after_p4();
    host.heartbeat(join(BB, 1_000));
    host.heartbeat(leave(BB, 1_000));
    host.heartbeat(join(BB, 1_000));
    assert_eq!((host.group.epoch(), host.group.target_epoch()), (4, 1));
    let given = host.heartbeat(ordinary(BB, 4, 1_000, Some(&[])));
    assert_eq!((given.answer, given.bytes), (assigned(4, 0), vec![]));
}

#[test]
fn leaving_takes_all_along() {
    let mut host = after_p8();
    let given = host.heartbeat(leave(AA, 2_000));
    assert_eq!(given.answer, Answer::Left);
    assert_eq!(given.bytes, hex("08 00 00 07 00 00 05 00 00 03 03"));
    assert_eq!(host.group.member_at(0), None);
    assert_eq!(host.group.target_of(1), None);
    assert_eq!(host.group.epoch(), 3);
}

#[test]
fn leaving_with_an_empty_target_writes_no_7() {
    let mut host = Host::new(0);
    host.heartbeat(join(AA, 0));
    let given = host.heartbeat(leave(AA, 0));
    assert_eq!(given.bytes, hex("08 00 00 05 00 00 03 02"));
}

#[test]
fn of_a_leave_only_id_and_tick_are_read() {
    let mut host = after_p4();
    let mut garbage = leave(AA, 1_000);
    garbage.timeout = -7;
    garbage.subscription = Some(0xFFFF);
    garbage.owned = Some(&[9, 9, 60_000, 3]);
    assert_eq!(host.lend(ROOMY, 0).heartbeat(garbage).answer, Answer::Left);
}

#[test]
fn a_new_member_at_an_old_place_finds_no_target() {
    let mut host = after_p4();
    host.heartbeat(leave(AA, 1_000));
    host.heartbeat(join(BB, 1_000));
    assert_eq!(host.member(0).id, BB);
    let given = host.heartbeat(ordinary(BB, 3, 1_000, Some(&[])));
    assert_eq!(given.answer, assigned(3, 0));
    assert_eq!(given.bytes, hex(""));
}
