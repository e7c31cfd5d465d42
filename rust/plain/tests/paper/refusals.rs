//! The first row 42 in pairs with what is right, then 25, 110 and 42 again.

use super::host::*;
use crate::coordinator::{Heartbeat, Refusal};

fn is_invalid(host: &mut Host, request: Heartbeat) -> bool {
    host.heartbeat(request).answer == refused(Refusal::InvalidRequest)
}

#[test]
fn numbers_are_those_of_01() {
    let numbers = [
        (Refusal::Clock, 1001),
        (Refusal::InvalidRequest, 42),
        (Refusal::UnknownMemberId, 25),
        (Refusal::GroupMaxSizeReached, 81),
        (Refusal::FencedMemberEpoch, 110),
        (Refusal::BadTarget { slot: 3 }, 1006),
        (Refusal::Stale, 1004),
        (Refusal::Already, 1005),
        (Refusal::BadTopic, 1007),
        (Refusal::EpochEnd, 1002),
        (Refusal::Room, 1003),
    ];
    for (refusal, number) in numbers {
        assert_eq!(refusal.number(), number);
    }
}

#[test]
fn an_id_all_zero_is_42_in_every_heartbeat() {
    let mut host = Host::new(0);
    assert!(is_invalid(&mut host, join(ZERO, 0)));
    assert!(is_invalid(&mut host, leave(ZERO, 0)));
    assert!(is_invalid(&mut host, ordinary(ZERO, 1, 0, None)));
    for byte in 0..16 {
        let mut nearly = ZERO;
        nearly[byte] = 1;
        assert!(!is_invalid(&mut host, join(nearly, 0)));
    }
}

#[test]
fn an_epoch_below_minus_1_is_42() {
    let mut host = after_p4();
    for epoch in [-2, -3, i32::MIN] {
        assert!(is_invalid(&mut host, ordinary(AA, epoch, 1_000, None)));
    }
}

#[test]
fn timeouts_1_and_1_800_000_are_right_and_their_neighbours_are_42() {
    for timeout in [0, -2, 1_800_001, i32::MIN, i32::MAX] {
        let mut host = after_p4();
        let mut joins = join(BB, 1_000);
        joins.timeout = timeout;
        assert!(is_invalid(&mut host, joins), "join {timeout}");
        let mut beats = ordinary(AA, 1, 1_000, None);
        beats.timeout = timeout;
        assert!(is_invalid(&mut host, beats), "ordinary {timeout}");
    }
    for timeout in [1, 1_800_000] {
        let mut host = after_p4();
        let mut joins = join(BB, 1_000);
        joins.timeout = timeout;
        assert_eq!(host.heartbeat(joins).answer, assigned(2, 0));
        assert_eq!(host.member(1).timeout, timeout as u32);
        let mut beats = ordinary(AA, 1, 1_000, None);
        beats.timeout = timeout;
        assert_eq!(host.heartbeat(beats).answer, assigned(1, 3));
        assert_eq!(host.member(0).timeout, timeout as u32);
    }
}

#[test]
fn timeout_1_800_000_is_three_bytes() {
    let mut host = Host::new(0);
    let mut joins = join(AA, 0);
    joins.timeout = 1_800_000;
    let bytes = "05 00 01 AA* C0 EE 6D 01 03 01 08 00 01 00 00";
    assert_eq!(host.heartbeat(joins).bytes, hex(bytes));
}

#[test]
fn a_list_rises_strictly_up_to_1_023() {
    let mut host = after_p4();
    let bad: [&[u16]; 6] = [
        &[1, 0],
        &[1, 1],
        &[0, 1, 2, 2],
        &[1_024],
        &[0, 65_535],
        &[2, 0],
    ];
    for list in bad {
        assert!(is_invalid(&mut host, ordinary(AA, 1, 1_000, Some(list))));
        // Told from 42 again: a malformed list comes before 25 too.
        assert!(is_invalid(&mut host, ordinary(BB, 1, 1_000, Some(list))));
    }
    let stranger = host.heartbeat(ordinary(BB, 1, 1_000, Some(&[0, 1_023])));
    assert_eq!(stranger.answer, refused(Refusal::UnknownMemberId));
    let longer: Vec<u16> = (0..1_025).collect();
    assert!(is_invalid(&mut host, ordinary(BB, 1, 1_000, Some(&longer))));
    let longest: Vec<u16> = (0..1_024).collect();
    let stranger = host.heartbeat(ordinary(BB, 1, 1_000, Some(&longest)));
    assert_eq!(stranger.answer, refused(Refusal::UnknownMemberId));
}

/// Joins that lack something, each in one way.
fn lacking() -> [Heartbeat<'static>; 5] {
    let whole = || join(AA, 0);
    [
        Heartbeat {
            subscription: None,
            ..whole()
        },
        Heartbeat {
            timeout: -1,
            ..whole()
        },
        Heartbeat {
            owned: None,
            ..whole()
        },
        Heartbeat {
            owned: Some(&[0]),
            ..whole()
        },
        Heartbeat {
            owned: Some(&[5, 5]),
            ..whole()
        },
    ]
}

#[test]
fn a_join_gives_subscription_timeout_and_an_empty_list() {
    let mut host = Host::new(0);
    for request in lacking() {
        assert!(is_invalid(&mut host, request));
    }
    let nothing_subscribed = Heartbeat {
        subscription: Some(0),
        ..join(AA, 0)
    };
    assert_eq!(host.heartbeat(nothing_subscribed).answer, assigned(1, 0));
    // The same for a known ID.
    for request in lacking() {
        assert!(is_invalid(&mut host, request));
    }
}

#[test]
fn an_unknown_id_is_25_for_ordinary_and_leave() {
    let mut host = after_p4();
    let unknown = refused(Refusal::UnknownMemberId);
    assert_eq!(host.heartbeat(ordinary(BB, 1, 1_000, None)).answer, unknown);
    assert_eq!(host.heartbeat(leave(BB, 1_000)).answer, unknown);
    host.heartbeat(leave(AA, 1_000));
    assert_eq!(host.heartbeat(ordinary(AA, 1, 1_000, None)).answer, unknown);
    assert_eq!(host.heartbeat(leave(AA, 1_000)).answer, unknown);
}

#[test]
fn ids_are_told_apart_by_every_byte() {
    let mut host = after_p4();
    for byte in 0..16 {
        let mut other = AA;
        other[byte] ^= 1;
        let given = host.heartbeat(ordinary(other, 1, 1_000, None));
        assert_eq!(given.answer, refused(Refusal::UnknownMemberId));
    }
}

#[test]
fn an_epoch_that_is_not_e_is_110() {
    let mut host = after_p8();
    let fenced = refused(Refusal::FencedMemberEpoch);
    for epoch in [2, 3, i32::MAX] {
        assert_eq!(
            host.heartbeat(ordinary(AA, epoch, 2_000, None)).answer,
            fenced
        );
    }
    assert_eq!(host.heartbeat(ordinary(BB, 1, 2_000, None)).answer, fenced);
    assert_eq!(
        host.heartbeat(ordinary(BB, 2, 2_000, None)).answer,
        assigned(2, 0)
    );
}

#[test]
fn a_listed_slot_in_neither_a_nor_p_is_42() {
    let mut host = after_p8();
    // 2 is in P of AA* and in the target of BB*, who does not hold it.
    assert!(is_invalid(&mut host, ordinary(BB, 2, 2_000, Some(&[2]))));
    assert!(is_invalid(
        &mut host,
        ordinary(AA, 1, 2_000, Some(&[0, 1, 2, 3]))
    ));
    assert!(!is_invalid(
        &mut host,
        ordinary(AA, 1, 2_000, Some(&[0, 1, 2]))
    ));
}
