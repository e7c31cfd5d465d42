//! G at its largest value: "a leave or sweep still removes and G stays".

use super::host::*;
use crate::coordinator::{Answer, Group, Heartbeat, Refusal};

const END: i32 = i32::MAX;
const EPOCH_END: Answer = Answer::Refused(Refusal::EpochEnd);

/// AA* and BB* are members, topic 0 has three partitions, AA* holds them; G = T = 2^31 - 1.
fn at_the_end() -> Host {
    let mut host = Host::with(Group::at_epochs(0, END - 2, 7));
    host.topic(0, [0x11; 16], 3);
    host.heartbeat(join(AA, 0));
    let given = host.heartbeat(join(BB, 0));
    let bytes = "05 01 01 BB* AC 02 01 03 FF FF FF FF 07 08 01 FF FF FF FF 07 00 00";
    assert_eq!((given.answer, given.bytes), (assigned(END, 0), hex(bytes)));
    let given = host.install(END, &entries(&[(0, 0), (1, 0), (2, 0)]));
    assert_eq!(given.bytes, hex("07 00 03 00 01 01 06 FF FF FF FF 07"));
    let given = host.heartbeat(ordinary(AA, END - 1, 0, None));
    assert_eq!(given.answer, assigned(END, 3));
    host
}

#[test]
fn the_last_raise_is_accepted_and_the_next_refused() {
    let mut host = Host::with(Group::at_epochs(0, END - 1, 0));
    assert_eq!(host.heartbeat(join(AA, 0)).answer, assigned(END, 0));
    assert_eq!(host.heartbeat(join(BB, 0)).answer, EPOCH_END);
}

#[test]
fn joins_changed_subscriptions_and_topics_are_1002() {
    let mut host = at_the_end();
    assert_eq!(host.heartbeat(join(id(1), 0)).answer, EPOCH_END);
    assert_eq!(host.heartbeat(join(AA, 0)).answer, EPOCH_END);
    let changed = Heartbeat {
        subscription: Some(3),
        ..ordinary(AA, END, 0, None)
    };
    assert_eq!(host.heartbeat(changed).answer, EPOCH_END);
    assert_eq!(host.topic(0, [0x11; 16], 4).answer, EPOCH_END);
}

#[test]
fn what_does_not_raise_g_goes_on() {
    let mut host = at_the_end();
    let same = Heartbeat {
        subscription: Some(1),
        timeout: 9,
        ..ordinary(AA, END, 0, Some(&[0, 1, 2]))
    };
    assert_eq!(host.heartbeat(same).answer, assigned(END, 3));
    assert_eq!(host.topic(0, [0x11; 16], 3).answer, Answer::Done);
    let given = host.topic(1, [0x22; 16], 3);
    assert_eq!(given.bytes, hex("04 01 22* 03"));
    let again = host.install(END, &entries(&[]));
    assert_eq!(again.answer, refused(Refusal::Already));
}

#[test]
fn a_leave_removes_and_writes_no_3() {
    let mut host = at_the_end();
    let given = host.heartbeat(leave(AA, 0));
    assert_eq!(given.answer, Answer::Left);
    assert_eq!(given.bytes, hex("08 00 00 07 00 00 05 00 00"));
    assert_eq!(host.group.member_at(0), None);
    assert_eq!(host.group.epoch(), END);
    // The place stays free for good.
    assert_eq!(host.heartbeat(join(AA, 0)).answer, EPOCH_END);
}

#[test]
fn a_sweep_removes_and_writes_no_3() {
    let mut host = at_the_end();
    let given = host.sweep(45_000);
    assert_eq!(given.answer, Answer::Swept(2));
    let bytes = "08 00 00 07 00 00 05 00 00 08 01 00 05 01 00";
    assert_eq!(given.bytes, hex(bytes));
    assert_eq!((host.group.epoch(), host.group.last_tick()), (END, 45_000));
}

#[test]
fn with_nobody_left_a_topic_is_still_made() {
    let mut host = at_the_end();
    host.sweep(45_000);
    assert_eq!(host.topic(0, [0x11; 16], 4).answer, Answer::Done);
}
