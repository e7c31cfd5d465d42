//! 1003: every kind of event with a buffer, and where it matters a list, exact and one short.

use super::host::*;
use crate::coordinator::Refusal;

/// Tries the event on copies of the host: exact room is enough, one short of either is not, and
/// the bytes and slots are the same as with all the room there can be.
fn exact_and_one_short(host: &Host, event: impl Fn(&mut Host) -> Given) {
    let copy = |buffer, list| Host {
        group: host.group.clone(),
        buffer,
        list,
    };
    let roomy = event(&mut copy(ROOMY, ALL_SLOTS));
    let (bytes, slots) = (roomy.bytes.len(), roomy.slots.len());
    assert_eq!(event(&mut copy(bytes, slots)), roomy);
    assert_eq!(event(&mut copy(bytes + 1, slots + 1)), roomy);
    for buffer in 0..bytes {
        let given = event(&mut copy(buffer, ALL_SLOTS));
        assert_eq!(given.answer, refused(Refusal::Room));
    }
    for list in 0..slots {
        let given = event(&mut copy(ROOMY, list));
        assert_eq!(given.answer, refused(Refusal::Room));
    }
}

#[test]
fn join_and_rejoin() {
    let host = after_p8();
    exact_and_one_short(&host, |host| host.heartbeat(join(id(1), 2_000)));
    exact_and_one_short(&host, |host| host.heartbeat(join(AA, 2_000)));
}

#[test]
fn ordinary_heartbeats() {
    let host = after_p8();
    let quiet = |host: &mut Host| host.heartbeat(ordinary(AA, 1, 2_000, None));
    let frees = |host: &mut Host| host.heartbeat(ordinary(AA, 1, 2_000, Some(&[0, 1])));
    let changes = |host: &mut Host| {
        let mut request = ordinary(AA, 1, 2_000, Some(&[]));
        request.timeout = 1_800_000;
        request.subscription = Some(0xFFFF);
        host.heartbeat(request)
    };
    exact_and_one_short(&host, quiet);
    exact_and_one_short(&host, frees);
    exact_and_one_short(&host, changes);
}

#[test]
fn leave_and_sweep() {
    let host = after_p8();
    exact_and_one_short(&host, |host| host.heartbeat(leave(AA, 2_000)));
    exact_and_one_short(&host, |host| host.sweep(2_000));
    exact_and_one_short(&host, |host| host.sweep(2_300));
    exact_and_one_short(&host, |host| host.sweep(47_000));
}

#[test]
fn topics_and_installs() {
    let mut host = after_p8();
    exact_and_one_short(&host, |host| host.topic(0, [0x11; 16], 3));
    exact_and_one_short(&host, |host| host.topic(0, [0x11; 16], 64));
    exact_and_one_short(&host, |host| host.topic(7, [0x77; 16], 64));
    host.topic(0, [0x11; 16], 64);
    let target: Vec<(usize, u8)> = (0..64).map(|slot| (slot, slot as u8 % 2)).collect();
    let target = entries(&target);
    exact_and_one_short(&host, |host| host.install(3, &target));
    // One target comes to be empty.
    exact_and_one_short(&host, |host| host.install(3, &runs(&[(0..64, 1)])));
}

#[test]
fn a_leave_needs_no_list() {
    let mut host = after_p4();
    let bytes = host.lend(ROOMY, 0).heartbeat(leave(AA, 1_000)).bytes;
    assert_eq!(bytes, hex("08 00 00 07 00 00 05 00 00 03 02"));
}
