use super::*;
use crate::coordinator::Answer;
use crate::line::{read, Step};

/// Two members, AA (topic 0) at p0 with slots 0 to 2, BB (topic 1) at p1, which awaits slot 64; topic
/// 0 has 3 partitions, topic 1 has one.
const GROUP: [&str; 7] = [
    "fresh tick 1000",
    "topic 0 id 11 count 3",
    "topic 1 id 22 count 1",
    "join AA tick 1000 timeout 300 topics 0",
    "join BB tick 1000 timeout 300 topics 1",
    "install epoch 2 0-2 to p0 t1:0 to p1",
    "beat AA epoch 1",
];

fn run(group: &mut Group, line: &str) -> Option<String> {
    match read(line).unwrap().unwrap() {
        Step::Fresh { tick } => *group = Group::new(tick),
        Step::Event(event, lent) => {
            if let Answer::Refused(refusal) = event.run(group, lent).answer {
                let reason = why(refusal, &event, lent, group);
                return Some(format!("{} {}: {reason}", refusal.number(), name(refusal)));
            }
        }
    }
    None
}

fn group_after(lines: &[&str]) -> Group {
    let mut group = Group::new(0);
    for line in lines {
        assert_eq!(run(&mut group, line), None, "{line}");
    }
    group
}

fn refused(line: &str, reason: &str) {
    let mut group = group_after(&GROUP);
    assert_eq!(run(&mut group, line).as_deref(), Some(reason), "{line}");
}

#[test]
fn the_clock() {
    let behind = "1001 CLOCK: tick 999 is 1 ms before the group's last tick, 1000";
    refused("sweep tick 999", behind);
    refused("leave AA tick 999", behind);
    refused(
        "sweep tick +2147483648",
        "1001 CLOCK: tick 2147484648 is 2147483648 ms before the group's last tick, 1000",
    );
}

#[test]
fn heartbeats_that_are_not_well_formed() {
    for (line, reason) in [
        ("leave 00", "the ID is all zeros"),
        ("beat AA epoch -2", "the epoch is -2, below -1"),
        (
            "beat AA epoch 1 timeout 0",
            "the timeout is 0, not 1 to 1800000 ms",
        ),
        (
            "join CC timeout 1800001 topics 0",
            "the timeout is 1800001, not 1 to 1800000 ms",
        ),
        (
            "beat AA epoch 1 list 1 0",
            "the list does not rise: 0 comes after 1",
        ),
        (
            "beat AA epoch 1 list 2 2",
            "the list does not rise: 2 comes after 2",
        ),
        (
            "beat AA epoch 1 list 0 1024",
            "the list has 1024, above the last slot, 1023",
        ),
        (
            "beat CC epoch 0 timeout 300 list none",
            "a join gives its topics, and this gives none",
        ),
        (
            "beat CC epoch 0 topics 0 list none",
            "a join gives a timeout, and this gives none",
        ),
        (
            "beat CC epoch 0 topics 0 timeout 300",
            "a join gives an empty list, and this gives no list",
        ),
        (
            "beat CC epoch 0 topics 0 timeout 300 list 0",
            "a join gives an empty list, and this one has slots",
        ),
        (
            "beat BB epoch 2 list t1:0",
            "slot 64 (t1:0) is listed, and BB does not hold it",
        ),
    ] {
        refused(line, &format!("42 INVALID_REQUEST: {reason}"));
    }
}

#[test]
fn members_and_epochs() {
    let unknown = "25 UNKNOWN_MEMBER_ID: no member has the ID CC";
    refused("leave CC", unknown);
    refused("beat CC epoch 1", unknown);
    refused(
        "beat AA epoch 1",
        "110 FENCED_MEMBER_EPOCH: the heartbeat is at epoch 1, and AA is at 2",
    );
}

#[test]
fn a_full_group() {
    let mut group = Group::new(0);
    for place in 0..32 {
        let line = format!("join w{place} timeout 300 topics 0");
        assert_eq!(run(&mut group, &line), None);
    }
    let full = "81 GROUP_MAX_SIZE_REACHED: all 32 places are taken";
    let line = "join one-more timeout 300 topics 0";
    assert_eq!(run(&mut group, line).as_deref(), Some(full));
}

#[test]
fn installs() {
    let stale = "1004 STALE: the install is for epoch 1, and the group is at 2";
    refused("install epoch 1", stale);
    let already = "1005 ALREADY: the target is for the group's current epoch already";
    refused("install epoch 2", already);
    let length = "1006 BAD_TARGET: the list has 1023 entries, not 1024";
    refused("install epoch 2 length 1023", length);
}

/// The group, with 2 partitions of topic 1, so that a target may follow, and after these lines.
fn untargeted(more: &[&str]) -> Group {
    let raised = ["topic 1 id 22 count 2"];
    group_after(&[&GROUP, &raised[..], more].concat())
}

/// Why the target is refused for the group's current epoch; None: it is accepted.
fn install(group: &Group, target: &str) -> Option<String> {
    let line = format!("install epoch {} {target}", group.epoch());
    let refused = run(&mut group.clone(), &line)?;
    let reason = refused.strip_prefix("1006 BAD_TARGET: ");
    Some(reason.expect(&refused).into())
}

fn is_refused(group: &Group, target: &str, reason: &str) {
    assert_eq!(install(group, target).as_deref(), Some(reason), "{target}");
}

/// Each with one entry that is bad.
#[test]
fn targets() {
    let group = untargeted(&[]);
    for (target, reason) in [
        (
            "0-1 to p0 2 to p32 64-65 to p1",
            "slot 2 (t0:2) cannot go to p32: the last place is p31",
        ),
        (
            "0-1 to p0 2 to p254 64-65 to p1",
            "slot 2 (t0:2) cannot go to p254: the last place is p31",
        ),
        (
            "0-1 to p0 2 to p31 64-65 to p1",
            "slot 2 (t0:2) cannot go to p31: p31 is empty",
        ),
        (
            "0-2 to p0 3 to p0 64-65 to p1",
            "slot 3 (t0:3) cannot go to p0: the slot does not exist",
        ),
        (
            "0-2 to p0 64-65 to p1 1023 to p1",
            "slot 1023 (t15:63) cannot go to p1: the slot does not exist",
        ),
        (
            "0-2 to p0 64 to p1 65 to p0",
            "slot 65 (t1:1) cannot go to p0: AA does not subscribe to t1",
        ),
    ] {
        is_refused(&group, target, reason);
    }
    assert_eq!(install(&group, "0-2 to p0 64-65 to p1"), None);
}

#[test]
fn slots_left_over() {
    let group = untargeted(&[]);
    for (target, slot) in [
        ("1-2 to p0 64-65 to p1", "slot 0 (t0:0)"),
        ("0,2 to p0 64-65 to p1", "slot 1 (t0:1)"),
        ("0-1 to p0 64-65 to p1", "slot 2 (t0:2)"),
        ("64-65 to p1", "slot 0 (t0:0)"),
    ] {
        let who = "p0 (AA) subscribes to t0, and the target gives it to nobody";
        is_refused(&group, target, &format!("{slot} is left over: {who}"));
    }
    is_refused(
        &group,
        "0-2 to p0 64 to p1",
        "slot 65 (t1:1) is left over: p1 (BB) subscribes to t1, and the target gives it to nobody",
    );
}

/// The first of the subscribers, and how many more there are.
#[test]
fn who_could_have_a_slot_left_over() {
    let one_more = "join worker-1 timeout 300 topics 0-2";
    let group = untargeted(&[one_more]);
    is_refused(
        &group,
        "0-1 to p0 64-65 to p1",
        "slot 2 (t0:2) is left over: p0 (AA) and 1 more subscribe to t0, and the target gives it to nobody",
    );
    let group = untargeted(&[one_more, "join CC timeout 300 topics 0", "leave AA"]);
    is_refused(
        &group,
        "0-1 to p2 64-65 to p1",
        "slot 2 (t0:2) is left over: p2 (worker-1) and 1 more subscribe to t0, and the target gives it to nobody",
    );
    let group = untargeted(&[one_more, "join CC timeout 300 topics 0"]);
    is_refused(
        &group,
        "0-1 to p0 64-65 to p1",
        "slot 2 (t0:2) is left over: p0 (AA) and 2 more subscribe to t0, and the target gives it to nobody",
    );
}

/// "but for a slot nobody subscribes to"; and one past the count does not exist.
#[test]
fn slots_that_may_have_no_owner() {
    let group = untargeted(&["topic 2 id 33 count 64", "leave BB"]);
    assert_eq!(install(&group, "0-2 to p0"), None);
    is_refused(
        &group,
        "0-2 to p0 64 to p0",
        "slot 64 (t1:0) cannot go to p0: AA does not subscribe to t1",
    );
}

#[test]
fn of_two_bad_slots_the_first_is_named() {
    let group = untargeted(&[]);
    let left_over =
        "slot 0 (t0:0) is left over: p0 (AA) subscribes to t0, and the target gives it to nobody";
    is_refused(&group, "1 to p0 2 to p2 64-65 to p1", left_over);
    is_refused(&group, "1-3 to p0 64-65 to p1", left_over);
    is_refused(
        &group,
        "0 to p2 1 to p0 64-65 to p1",
        "slot 0 (t0:0) cannot go to p2: p2 is empty",
    );
    is_refused(
        &group,
        "0-2 to p0 3 to p0 64 to p1",
        "slot 3 (t0:3) cannot go to p0: the slot does not exist",
    );
}

/// "whose place is above 31 or empty, or whose slot doesn't exist, or whose member doesn't subscribe".
#[test]
fn of_two_reasons_for_a_slot_the_first_of_01_is_named() {
    let group = untargeted(&[]);
    for (entry, reason) in [
        (
            "3 to p32",
            "slot 3 (t0:3) cannot go to p32: the last place is p31",
        ),
        ("3 to p2", "slot 3 (t0:3) cannot go to p2: p2 is empty"),
        (
            "3 to p1",
            "slot 3 (t0:3) cannot go to p1: the slot does not exist",
        ),
    ] {
        is_refused(&group, &format!("0-2 to p0 {entry} 64-65 to p1"), reason);
    }
}

/// With a slot that nothing is wrong with, and one that no list has.
#[test]
fn a_target_of_which_nothing_is_known() {
    let group = untargeted(&["leave BB"]);
    let mut entries = vec![NO_PLACE; SLOTS.into()];
    entries[..3].fill(0);
    let epoch = group.epoch();
    let event = Event::Install { epoch, entries };
    for slot in [0, 3, 64, 1024, 65535] {
        let refusal = Refusal::BadTarget { slot };
        let reason = why(refusal, &event, Lent::ENOUGH, &group);
        assert_eq!(reason, "the list is not a target for this group", "{slot}");
    }
}

#[test]
fn topics() {
    for (line, reason) in [
        (
            "topic 16 id 33 count 1",
            "the number is 16, above the last, 15",
        ),
        ("topic 2 id 33 count 0", "the count is 0, not 1 to 64"),
        ("topic 2 id 33 count 65", "the count is 65, not 1 to 64"),
        ("topic 2 id 00 count 1", "the ID is all zeros"),
        ("topic 2 id 11 count 1", "11 is the ID of topic 0"),
        ("topic 1 id 11 count 1", "11 is the ID of topic 0"),
        ("topic 0 id 33 count 3", "topic 0 has the ID 11, not 33"),
        ("topic 0 id 11 count 2", "the count falls from 3 to 2"),
    ] {
        refused(line, &format!("1007 BAD_TOPIC: {reason}"));
    }
}

#[test]
fn room_names_what_was_needed() {
    refused(
        "join CC timeout 300 topics 0 room 28",
        "1003 ROOM: the records take 29 bytes, and 28 were lent",
    );
    refused(
        "beat AA epoch 2 entries 2",
        "1003 ROOM: the answer has 3 slots, and 2 entries were lent",
    );
    let mut group = group_after(&GROUP);
    let exact = "join CC timeout 300 topics 0 room 29";
    assert_eq!(run(&mut group, exact), None);
}

#[test]
fn the_end_of_the_epochs() {
    let sweep = Event::Sweep {
        tick: crate::event::Tick::Last,
    };
    let reason = why(Refusal::EpochEnd, &sweep, Lent::ENOUGH, &Group::new(0));
    assert_eq!(reason, "the group's epoch is 2147483647 and cannot rise");
    assert_eq!(name(Refusal::EpochEnd), "EPOCH_END");
}

#[test]
fn every_refusal_has_a_sentence_whatever_the_event() {
    let event = Event::Topic {
        number: 0,
        id: [0x11; 16],
        count: 1,
    };
    for refusal in [
        Refusal::Clock,
        Refusal::InvalidRequest,
        Refusal::UnknownMemberId,
        Refusal::GroupMaxSizeReached,
        Refusal::FencedMemberEpoch,
        Refusal::BadTarget { slot: 0 },
        Refusal::Stale,
        Refusal::Already,
        Refusal::BadTopic,
        Refusal::EpochEnd,
        Refusal::Room,
    ] {
        let reason = why(refusal, &event, Lent::ENOUGH, &Group::new(0));
        assert_eq!(reason, in_general(refusal));
    }
}
