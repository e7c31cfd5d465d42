//! Sweeps: who goes, how often G rises, what is written.

use super::host::*;
use crate::coordinator::{Answer, Group};

#[test]
fn session_elapsed_44_999_stays_and_45_000_goes() {
    let mut host = Host::new(1_000);
    host.heartbeat(join(AA, 1_000));
    let given = host.sweep(45_999);
    assert_eq!((given.answer, given.bytes), (Answer::Swept(0), vec![]));
    let given = host.sweep(46_000);
    assert_eq!(given.answer, Answer::Swept(1));
    assert_eq!(given.bytes, hex("08 00 00 05 00 00 03 02"));
    assert_eq!(host.group.member_at(0), None);
}

#[test]
fn p_set_for_less_than_the_timeout_stays_and_for_the_timeout_goes() {
    let mut host = after_p8();
    assert_eq!(host.sweep(2_299).answer, Answer::Swept(0));
    let given = host.sweep(2_300);
    assert_eq!(given.answer, Answer::Swept(1));
    // AA* had slots in its target, so its 7 is written; BB* stays with its own.
    assert_eq!(given.bytes, hex("08 00 00 07 00 00 05 00 00 03 03"));
    assert_eq!(host.group.target_of(0), None);
    assert_eq!(host.group.target_of(2), Some(1));
    let given = host.heartbeat(ordinary(BB, 2, 2_300, Some(&[])));
    assert_eq!(given.slots, [2]);
}

#[test]
fn without_p_the_timeout_does_not_matter() {
    let mut host = after_p4();
    assert_eq!(host.sweep(1_000 + 44_999).answer, Answer::Swept(0));
}

#[test]
fn a_heartbeat_that_keeps_p_does_not_restart_its_timer() {
    let mut host = after_p8();
    host.heartbeat(ordinary(AA, 1, 2_299, Some(&[0, 1, 2])));
    assert_eq!(host.member(0).revoked_at, 2_000);
    assert_eq!(host.sweep(2_300).answer, Answer::Swept(1));
}

#[test]
fn the_timeout_stored_at_the_sweep_counts() {
    let mut host = after_p8();
    let mut longer = ordinary(AA, 1, 2_000, None);
    longer.timeout = 400;
    host.heartbeat(longer);
    assert_eq!(host.sweep(2_399).answer, Answer::Swept(0));
    assert_eq!(host.sweep(2_400).answer, Answer::Swept(1));
}

#[test]
fn g_rises_once_for_the_whole_sweep_and_places_come_in_order() {
    let mut host = Host::new(0);
    for number in 1..=3 {
        host.heartbeat(join(id(number), 0));
    }
    host.heartbeat(ordinary(id(2), 2, 1, None));
    let given = host.sweep(45_000);
    assert_eq!(given.answer, Answer::Swept(2));
    assert_eq!(
        given.bytes,
        hex("08 00 00 05 00 00 08 02 00 05 02 00 03 04")
    );
    assert_eq!(host.group.epoch(), 4);
    assert!(host.group.member_at(1).is_some());
}

#[test]
fn a_member_due_for_both_reasons_goes_once() {
    let mut host = after_p8();
    let given = host.sweep(2_000 + 45_000);
    assert_eq!(given.answer, Answer::Swept(2));
    let bytes = "08 00 00 07 00 00 05 00 00 08 01 00 07 01 00 05 01 00 03 03";
    assert_eq!(given.bytes, hex(bytes));
}

#[test]
fn what_was_held_is_free_after_the_sweep() {
    let mut host = after_p4();
    host.heartbeat(join(BB, 40_000));
    assert_eq!(host.sweep(46_000).answer, Answer::Swept(1));
    host.install(3, &entries(&[(0, 1), (1, 1), (2, 1)]));
    let given = host.heartbeat(ordinary(BB, 2, 46_000, Some(&[])));
    assert_eq!(given.slots, [0, 1, 2]);
}

#[test]
fn a_sweep_of_an_empty_group_moves_the_tick_alone() {
    let mut host = Host::with(Group::new(5));
    let given = host.lend(0, 0).sweep(9);
    assert_eq!((given.answer, given.bytes), (Answer::Swept(0), vec![]));
    assert_eq!((host.group.epoch(), host.group.last_tick()), (0, 9));
}
