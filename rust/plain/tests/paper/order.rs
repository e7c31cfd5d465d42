//! "They are tried in this order": each event here earns two refusals or more, and the first row of
//! the table wins.

use super::host::*;
use crate::coordinator::{Group, Heartbeat, Refusal};

const END: i32 = i32::MAX;

/// 32 members at G's largest value; the first has timeout 300 and subscribes to topic 0.
fn full_at_the_end() -> Host {
    let mut host = Host::with(Group::at_epochs(0, END - 32, 0));
    for number in 0..32 {
        host.heartbeat(join(id(number), 0));
    }
    assert_eq!(host.group.epoch(), END);
    host.lend(0, 0);
    host
}

fn expect(host: &mut Host, request: Heartbeat, refusal: Refusal) {
    assert_eq!(host.heartbeat(request).answer, refused(refusal));
}

#[test]
fn of_a_join() {
    let back = u32::MAX;
    let mut host = full_at_the_end();
    let malformed = Heartbeat {
        timeout: 0,
        ..join(id(99), 0)
    };
    expect(&mut host, join(ZERO, back), Refusal::Clock);
    expect(
        &mut host,
        Heartbeat {
            tick: back,
            ..malformed
        },
        Refusal::Clock,
    );
    expect(&mut host, malformed, Refusal::InvalidRequest);
    expect(&mut host, join(id(99), 0), Refusal::GroupMaxSizeReached);
    expect(&mut host, join(id(5), 0), Refusal::EpochEnd);
    let mut roomless = Host::new(0);
    expect(roomless.lend(22, 0), join(AA, 0), Refusal::Room);
}

/// A heartbeat of the first member that changes its subscription and lists a slot it hasn't.
fn worst(host: &Host) -> Heartbeat<'static> {
    Heartbeat {
        subscription: Some(2),
        ..ordinary(id(0), host.member(0).epoch, 0, Some(&[9]))
    }
}

#[test]
fn of_an_ordinary_heartbeat_by_a_stranger() {
    let mut host = full_at_the_end();
    let mut request = worst(&host);
    request.id = id(99);
    request.owned = Some(&[9, 9]);
    request.tick = u32::MAX;
    expect(&mut host, Heartbeat { ..request }, Refusal::Clock);
    request.tick = 0;
    expect(&mut host, Heartbeat { ..request }, Refusal::InvalidRequest);
    request.owned = Some(&[9]);
    expect(&mut host, request, Refusal::UnknownMemberId);
}

#[test]
fn of_an_ordinary_heartbeat_by_a_member() {
    let mut host = full_at_the_end();
    let mut request = worst(&host);
    request.epoch += 1;
    expect(&mut host, request, Refusal::FencedMemberEpoch);
    let request = worst(&host);
    expect(&mut host, request, Refusal::InvalidRequest);
    let mut request = worst(&host);
    request.owned = None;
    expect(&mut host, Heartbeat { ..request }, Refusal::EpochEnd);
    request.subscription = None;
    request.timeout = 1;
    expect(&mut host, request, Refusal::Room);
}

#[test]
fn of_a_leave() {
    let mut host = after_p4();
    host.lend(0, 0);
    expect(&mut host, leave(ZERO, 999), Refusal::Clock);
    expect(&mut host, leave(ZERO, 1_000), Refusal::InvalidRequest);
    expect(&mut host, leave(BB, 1_000), Refusal::UnknownMemberId);
    expect(&mut host, leave(AA, 1_000), Refusal::Room);
}

#[test]
fn of_a_sweep() {
    let mut host = after_p4();
    host.lend(0, 0);
    assert_eq!(host.sweep(999).answer, refused(Refusal::Clock));
    assert_eq!(host.sweep(46_000).answer, refused(Refusal::Room));
}

#[test]
fn of_a_topic() {
    let mut host = full_at_the_end();
    let topic = [0x11; 16];
    assert_eq!(host.topic(0, topic, 65).answer, refused(Refusal::BadTopic));
    assert_eq!(host.topic(0, topic, 64).answer, refused(Refusal::EpochEnd));
    assert_eq!(host.topic(1, topic, 64).answer, refused(Refusal::Room));
}

#[test]
fn of_an_install() {
    // One slot is not there, one is left over.
    let target = runs(&[(0..4, 0)]);
    for (bad, slot) in [
        (with(&target, &[(5, 0)]), 5),
        (with(&target, &[(1, NONE)]), 1),
    ] {
        let mut host = after_p4();
        host.lend(0, 0);
        assert_eq!(host.install(0, &bad[..1_023]).answer, bad_target(65_535));
        assert_eq!(host.install(0, &bad).answer, refused(Refusal::Stale));
        assert_eq!(host.install(1, &bad).answer, refused(Refusal::Already));
        host.lend(ROOMY, 0).topic(0, [0x11; 16], 4);
        host.lend(0, 0);
        assert_eq!(host.install(2, &bad).answer, bad_target(slot));
        assert_eq!(host.install(2, &target).answer, refused(Refusal::Room));
    }
}
