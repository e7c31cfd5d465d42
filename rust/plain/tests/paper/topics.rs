//! Topics: made, raised, the same again, and each reason for 1007.

use super::host::*;
use crate::coordinator::{Answer, Refusal, Topic};

const T1: [u8; 16] = [0x11; 16];
const T2: [u8; 16] = [0x22; 16];

#[test]
fn nobody_subscribes_so_g_stays() {
    let mut host = Host::new(0);
    host.heartbeat(join(AA, 0));
    let given = host.topic(1, T1, 64);
    assert_eq!(given.bytes, hex("04 01 11* 40"));
    assert_eq!(host.group.epoch(), 1);
    assert_eq!(host.group.topic_at(1), Some(Topic { id: T1, count: 64 }));
}

#[test]
fn a_subscription_may_name_a_topic_before_it_is_made() {
    let mut host = Host::new(0);
    host.heartbeat(join(AA, 0));
    let given = host.topic(0, T1, 1);
    assert_eq!(given.bytes, hex("04 00 11* 01 03 02"));
    let given = host.topic(0, T1, 2);
    assert_eq!(given.bytes, hex("04 00 11* 02 03 03"));
    assert_eq!(host.group.epoch(), 3);
}

#[test]
fn the_same_count_again_changes_nothing() {
    let mut host = after_p4();
    let given = host.lend(0, 0).topic(0, T1, 3);
    assert_eq!((given.answer, given.bytes), (Answer::Done, vec![]));
    assert_eq!(host.group.epoch(), 1);
}

#[test]
fn each_bad_topic_is_1007_and_its_neighbour_is_not() {
    let mut host = Host::new(0);
    host.topic(0, T1, 3);
    let bad = [
        (16, T2, 1),
        (u32::MAX, T2, 1),
        (256, T2, 1),
        (1, T2, 0),
        (1, T2, 65),
        (1, T2, 257),
        (1, T2, u32::MAX),
        (1, ZERO, 1),
        (1, T1, 3),
        (0, T2, 3),
        (0, T1, 2),
    ];
    for (number, id, count) in bad {
        let answer = host.topic(number, id, count).answer;
        assert_eq!(answer, refused(Refusal::BadTopic), "{number} {count}");
    }
    assert_eq!(host.topic(15, T2, 64).answer, Answer::Done);
    assert_eq!(host.topic(0, T1, 4).answer, Answer::Done);
    assert_eq!(host.topic(1, [1; 16], 1).answer, Answer::Done);
}

#[test]
fn an_id_zero_but_for_one_byte_is_an_id() {
    let mut host = Host::new(0);
    for byte in 0..16 {
        let mut id = ZERO;
        id[byte] = 1;
        assert_eq!(host.topic(byte as u32, id, 1).answer, Answer::Done);
    }
}
