//! Request 4, 'Our own range assignor': "For each topic, take its subscribers in rising order of ID
//! bytes; n partitions over k subscribers, the first n mod k get one more than the rest, each a run of
//! neighbours, in order. With k = 0 none are given."

use super::host::*;
use crate::coordinator::{Answer, Heartbeat, Id, Refusal};

const CC: Id = [0xCC; 16];
const DD: Id = [0xDD; 16];
const EE: Id = [0xEE; 16];

fn subscribing(request: Heartbeat, topics: u16) -> Heartbeat {
    Heartbeat {
        subscription: Some(topics),
        ..request
    }
}

/// Members at places 0, 1 and so on, in this order, each with its subscription.
fn members(host: &mut Host, members: &[(Id, u16)]) {
    for &(id, topics) in members {
        host.heartbeat(subscribing(join(id, 0), topics));
    }
}

/// Topic 0 with so many partitions, CC* at place 0, AA* at place 1 and BB* at place 2.
fn three_members(count: u32) -> Host {
    let mut host = Host::new(0);
    host.topic(0, id(0), count);
    members(&mut host, &[(CC, 1), (AA, 1), (BB, 1)]);
    host
}

#[test]
fn seven_partitions_over_three_subscribers() {
    let target = three_members(7).group.range_target();
    assert_eq!(target[..], runs(&[(0..3, 1), (3..5, 2), (5..7, 0)]));
}

#[test]
fn every_remainder() {
    for (count, target) in [
        (1, &[(0..1, 1)][..]),
        (2, &[(0..1, 1), (1..2, 2)]),
        (3, &[(0..1, 1), (1..2, 2), (2..3, 0)]),
        (4, &[(0..2, 1), (2..3, 2), (3..4, 0)]),
        (5, &[(0..2, 1), (2..4, 2), (4..5, 0)]),
        (6, &[(0..2, 1), (2..4, 2), (4..6, 0)]),
        (63, &[(0..21, 1), (21..42, 2), (42..63, 0)]),
        (64, &[(0..22, 1), (22..43, 2), (43..64, 0)]),
    ] {
        let host = three_members(count);
        assert_eq!(host.group.range_target()[..], runs(target), "{count}");
    }
}

#[test]
fn fewer_partitions_than_subscribers() {
    let mut host = Host::new(0);
    host.topic(3, id(3), 2);
    members(&mut host, &[EE, BB, DD, AA, CC].map(|id| (id, 1 << 3)));
    assert_eq!(
        host.group.range_target()[..],
        entries(&[(192, 3), (193, 1)])
    );
}

#[test]
fn without_subscribers_none_are_given() {
    let mut host = Host::new(0);
    assert_eq!(host.group.range_target(), [NONE; ALL_SLOTS]);
    host.topic(0, id(0), 64);
    assert_eq!(host.group.range_target(), [NONE; ALL_SLOTS]);
    // Members of no topic, of topics that are not there, and of all but this one.
    members(&mut host, &[(AA, 0), (BB, 1 << 1), (CC, u16::MAX - 1)]);
    assert_eq!(host.group.range_target(), [NONE; ALL_SLOTS]);
    host.heartbeat(subscribing(join(DD, 0), 1));
    assert_eq!(host.group.range_target()[..], runs(&[(0..64, 3)]));
    host.heartbeat(leave(DD, 0));
    assert_eq!(host.group.range_target(), [NONE; ALL_SLOTS]);
}

/// AA* would be first, and would make the shares smaller, were it counted.
#[test]
fn a_subscriber_of_another_topic_only() {
    let mut host = Host::new(0);
    host.topic(0, id(0), 7);
    host.topic(1, id(1), 1);
    members(&mut host, &[(DD, 1), (AA, 2), (BB, 1), (CC, 1)]);
    let target = host.group.range_target();
    let expected = runs(&[(0..3, 2), (3..5, 3), (5..7, 0), (64..65, 1)]);
    assert_eq!(target[..], expected);
}

/// Topic t has t + 1 partitions. BB*, at place 0, subscribes to all, AA* to the even ones, CC* to the
/// odd ones.
#[test]
fn all_sixteen_topics() {
    let mut host = Host::new(0);
    for number in 0..16 {
        host.topic(number, id(number as u8), number + 1);
    }
    members(&mut host, &[(BB, 0xFFFF), (CC, 0xAAAA), (AA, 0x5555)]);
    let expected = runs(&[
        (0..1, 2),
        (64..65, 0),
        (65..66, 1),
        (128..130, 2),
        (130..131, 0),
        (192..194, 0),
        (194..196, 1),
        (256..259, 2),
        (259..261, 0),
        (320..323, 0),
        (323..326, 1),
        (384..388, 2),
        (388..391, 0),
        (448..452, 0),
        (452..456, 1),
        (512..517, 2),
        (517..521, 0),
        (576..581, 0),
        (581..586, 1),
        (640..646, 2),
        (646..651, 0),
        (704..710, 0),
        (710..716, 1),
        (768..775, 2),
        (775..781, 0),
        (832..839, 0),
        (839..846, 1),
        (896..904, 2),
        (904..911, 0),
        (960..968, 0),
        (968..976, 1),
    ]);
    assert_eq!(host.group.range_target()[..], expected);
}

/// IDs fall as places rise.
fn thirty_two_members(count: u32, topics: u32) -> Host {
    let mut host = Host::new(0);
    for number in 0..topics {
        host.topic(number, id(number as u8), count);
    }
    for place in 0..32 {
        host.heartbeat(subscribing(join(id(31 - place), 0), 0xFFFF));
    }
    host
}

#[test]
fn sixty_four_partitions_over_thirty_two_members() {
    let target = thirty_two_members(64, 16).group.range_target();
    for (slot, &place) in target.iter().enumerate() {
        assert_eq!(usize::from(place), 31 - slot % 64 / 2, "slot {slot}");
    }
}

#[test]
fn thirty_three_partitions_over_thirty_two_members() {
    let target = thirty_two_members(33, 1).group.range_target();
    assert_eq!(target[..4], [31, 31, 30, 29]);
    assert_eq!(target[31..34], [1, 0, NONE]);
}

#[test]
fn nothing_above_the_count() {
    let mut host = three_members(3);
    let three = host.group.range_target();
    assert_eq!(three[..5], [1, 2, 0, NONE, NONE]);
    assert!(three[3..].iter().all(|&entry| entry == NONE));
    host.topic(0, id(0), 5);
    let five = host.group.range_target();
    assert_eq!(five[..6], [1, 1, 2, 2, 0, NONE]);
    assert!(five[5..].iter().all(|&entry| entry == NONE));
}

/// An ID whose bytes are zero but for those given.
fn id_with(bytes: &[(usize, u8)]) -> Id {
    let mut id = ZERO;
    for &(at, byte) in bytes {
        id[at] = byte;
    }
    id
}

/// The first byte in which two differ decides, and 80 is above 7F.
#[test]
fn ids_are_ordered_by_their_bytes() {
    let rising = [
        id_with(&[(15, 1)]),
        id_with(&[(15, 0x7F)]),
        id_with(&[(15, 0x80)]),
        id_with(&[(8, 1)]),
        id_with(&[(7, 1)]),
        id_with(&[(7, 1), (15, 0xFF)]),
        id_with(&[(0, 1)]),
        id_with(&[(0, 1), (1, 0xFF)]),
        id_with(&[(0, 0x7F)]),
        id_with(&[(0, 0x80)]),
        id_with(&[(0, 0x80), (1, 1)]),
        [0xFF; 16],
    ];
    // The member at place k has the ID with this number.
    let order: [usize; 12] = [5, 0, 11, 7, 2, 9, 4, 10, 1, 8, 3, 6];
    let mut host = Host::new(0);
    host.topic(0, id(0), 12);
    for number in order {
        host.heartbeat(join(rising[number], 0));
    }
    let target = host.group.range_target();
    assert_eq!(target[..12], [1, 8, 4, 10, 6, 0, 11, 3, 9, 5, 7, 2]);
}

/// A new member at an old place stands where its own ID does.
#[test]
fn a_place_used_again() {
    let mut host = three_members(7);
    host.heartbeat(leave(AA, 0));
    let target = host.group.range_target();
    assert_eq!(target[..], runs(&[(0..4, 2), (4..7, 0)]));
    host.heartbeat(join(DD, 0));
    let target = host.group.range_target();
    assert_eq!(target[..], runs(&[(0..3, 2), (3..5, 0), (5..7, 1)]));
}

/// It changes nothing, and what is targeted or held has no say in it.
#[test]
fn the_target_in_force_is_not_looked_at() {
    let mut host = after_p8();
    for _ in 0..3 {
        let before = picture(&host.group);
        assert_eq!(host.group.range_target()[..4], [0, 0, 1, NONE]);
        assert_eq!(picture(&host.group), before);
        host.heartbeat(ordinary(AA, 1, 2_000, Some(&[0, 1])));
        host.topic(1, [0x22; 16], 64);
    }
}

/// P6: the even target of the paper is this one.
#[test]
fn the_papers_second_install() {
    let mut host = after_p4();
    host.heartbeat(join(BB, 2_000));
    let target = host.group.range_target();
    let given = host.install(2, &target);
    let bytes = hex("07 00 02 00 01 07 01 01 02 06 02");
    assert_eq!((given.answer, given.bytes), (Answer::Done, bytes));
    assert_eq!(host.group.range_target(), target);
    assert_eq!(host.install(2, &target).answer, refused(Refusal::Already));
}

/// "The result must always be accepted by an install for the current epoch if T is below G and there
/// is room for the records."
#[test]
fn an_install_takes_it_wherever_there_is_room() {
    for mut host in [
        three_members(7),
        thirty_two_members(1, 1),
        thirty_two_members(33, 7),
        thirty_two_members(64, 16),
    ] {
        let (epoch, target) = (host.group.epoch(), host.group.range_target());
        let mut copy = Host::with(host.group.clone());
        let given = copy.install(epoch, &target);
        assert_eq!(given.answer, Answer::Done);
        let room = given.bytes.len();
        let short = host.lend(room - 1, 0).install(epoch, &target);
        assert_eq!(short.answer, refused(Refusal::Room));
        let exact = host.lend(room, 0).install(epoch, &target);
        assert_eq!(exact, given);
        let slots = 0..ALL_SLOTS as u16;
        let targets = slots.map(|slot| host.group.target_of(slot).unwrap_or(NONE));
        assert!(targets.eq(target));
    }
}
