//! The group struct as declared here, against what the archive writes: events that leave something
//! of its own in every field, then every field against what they must have left.

use crate::ffi;
use crate::ids;
use crate::{Answer, Group, Heartbeat, Id, Reply};

const TOPICS: u8 = 16;
/// One place is left free.
const MEMBERS: u8 = 31;
const NOBODY: u8 = 255;

/// Every byte of it is another, and of every ID the first.
fn id(first: u8) -> Id {
    std::array::from_fn(|i| first.wrapping_add(16 * i as u8))
}

fn topic_id(topic: u8) -> Id {
    id(topic)
}

fn member_id(place: u8) -> Id {
    id(100 + place)
}

/// How many a topic has before topic 0 is raised.
fn partitions(topic: u8) -> u8 {
    20 + topic
}

/// Its own topic, which it shares with one other member, and one more, so that no two are equal.
fn subscription(place: u8) -> u16 {
    let (own, lap) = (place % TOPICS, place / TOPICS);
    1 << own | 1 << ((own + 1 + lap) % TOPICS)
}

fn timeout(place: u8) -> u32 {
    20_000 + u32::from(place)
}

fn tick(hour: u32, place: u8) -> u32 {
    hour * 1_000 + u32::from(place)
}

/// The entries of an install, by topic and partition, once topic 0 was raised so many times.
fn entries(raises: u8, place: impl Fn(u8, u8) -> u8) -> Vec<u8> {
    let of_slot = |slot: u16| {
        let (topic, partition) = ((slot / 64) as u8, (slot % 64) as u8);
        let raised = if topic == 0 { raises } else { 0 };
        if partition < partitions(topic) + raised {
            place(topic, partition)
        } else {
            NOBODY
        }
    };
    (0..1_024).map(of_slot).collect()
}

/// A target for the group after all events: every slot to the place of its topic's number.
pub fn target() -> Vec<u8> {
    entries(2, |topic, _| topic)
}

/// Even partitions stay at the place of the topic's number, odd ones go sixteen places on; where that
/// place is free, to another that subscribes to the topic.
fn parted(topic: u8, partition: u8) -> u8 {
    match partition % 2 {
        0 => topic,
        _ if topic + TOPICS < MEMBERS => topic + TOPICS,
        _ => MEMBERS - 2,
    }
}

struct Host {
    group: Group,
    records: Vec<u8>,
    list: Vec<u16>,
}

impl Host {
    fn accepts(&mut self, event: impl Fn(&mut Group, &mut [u8], &mut [u16]) -> Reply) {
        let reply = event(&mut self.group, &mut self.records, &mut self.list);
        let is_refused = matches!(reply.answer, Answer::Refused(_));
        assert!(!is_refused, "{reply:?}");
    }

    fn topic(&mut self, number: u8, count: u8) {
        let (id, count) = (topic_id(number), u32::from(count));
        self.accepts(|group, records, _| group.topic(number.into(), id, count, records));
    }

    fn join(&mut self, place: u8) {
        let request = Heartbeat {
            id: member_id(place),
            epoch: 0,
            tick: tick(1, place),
            timeout: timeout(place) as i32,
            subscription: Some(subscription(place)),
            owned: Some(&[]),
        };
        self.accepts(|group, records, list| group.heartbeat(&request, records, list));
    }

    fn heartbeat(&mut self, place: u8, epoch: i32, hour: u32) {
        let request = Heartbeat {
            id: member_id(place),
            epoch,
            tick: tick(hour, place),
            timeout: -1,
            subscription: None,
            owned: None,
        };
        self.accepts(|group, records, list| group.heartbeat(&request, records, list));
    }

    fn install(&mut self, epoch: i32, entries: &[u8]) {
        self.accepts(|group, records, _| group.install(epoch, entries, records));
    }
}

/// G is 31 after the joins and rises by one with each of two raises of topic 0; the places up to
/// 15 get all partitions, then are told to give the odd ones back, and are heard once more.
pub fn events() -> Group {
    let mut host = Host {
        group: Group::new(7),
        records: vec![0; 4_096],
        list: vec![0; 1_024],
    };
    (0..TOPICS).for_each(|topic| host.topic(topic, partitions(topic)));
    (0..MEMBERS).for_each(|place| host.join(place));
    host.install(31, &entries(0, |topic, _| topic));
    (0..TOPICS).for_each(|place| host.heartbeat(place, i32::from(place) + 1, 2));
    host.topic(0, partitions(0) + 1);
    host.install(32, &entries(1, parted));
    (0..TOPICS).for_each(|place| host.heartbeat(place, 31, 3));
    (0..TOPICS).for_each(|place| host.heartbeat(place, 31, 4));
    host.topic(0, partitions(0) + 2);
    host.group
}

#[test]
fn every_field_of_a_group_is_where_it_is_declared() {
    let group = events().value;
    assert_eq!((group.epoch, group.target_epoch), (33, 32));
    assert_eq!(group.tick, tick(4, TOPICS - 1));
    check_topics(&group);
    check_members(&group);
    check_slots(&group);
}

fn check_topics(group: &ffi::Group) {
    for number in 0..TOPICS {
        let at = usize::from(number);
        let raised = if number == 0 { 2 } else { 0 };
        assert_eq!(group.topic_ids[at], topic_id(number));
        assert_eq!(group.topic_counts[at], partitions(number) + raised);
    }
}

fn check_members(group: &ffi::Group) {
    let words = |at: usize| group.member_ids.map(|column| column[at]);
    assert_eq!(words(MEMBERS.into()), [0; 4], "the free place");
    for place in 0..MEMBERS {
        let at = usize::from(place);
        assert_eq!(words(at), ids::words(member_id(place)));
        assert_eq!(group.subscriptions[at], subscription(place).into());
        assert_eq!(group.timeouts[at], timeout(place));
        let is_heard_again = place < TOPICS;
        let (epoch, heard, revoked_at) = if is_heard_again {
            (31, tick(4, place), tick(3, place))
        } else {
            let joined = tick(1, place);
            (u32::from(place) + 1, joined, joined)
        };
        assert_eq!(group.member_epochs[at], epoch, "place {place}");
        assert_eq!(group.heard[at], heard, "place {place}");
        assert_eq!(group.revoked_at[at], revoked_at, "place {place}");
    }
}

fn check_slots(group: &ffi::Group) {
    assert_eq!(group.target[..], entries(1, parted));
    assert_eq!(group.holder[..], entries(0, |topic, _| topic));
    let waiting = entries(0, |_, partition| partition % 2);
    let waiting: Vec<bool> = waiting.iter().map(|&odd| odd == 1).collect();
    assert_eq!(group.waiting[..], waiting);
}
