//! Request 3's rule altered: which slots are taken for left over, and which bad slot is reported.

use trial::data::{Answer, Beat, Reply, NO_PLACE, PARTITIONS, SLOTS};
use trial::reasons::{bad_entries, Reason, Why};
use trial::snapshot::Snapshot;
use trial::trial::Check;
use trial::Coordinator;

use super::mutant::*;
use super::{caught_on_each, finds_nothing};

/// The slot reported, of the group, the entries and the bad slots that there are, rising; where none
/// is, the install goes on.
struct Reports(fn(&Snapshot, &[u8], &[Why]) -> Option<u16>);

impl Mutation for Reports {
    fn install(&self, mutant: &mut Mutant, epoch: i32, entries: &[u8], buffer: &mut [u8]) -> Reply {
        reporting(mutant, epoch, entries, buffer, self.0)
    }
}

/// An install of which another slot may be reported, after the rows before.
fn reporting(
    mutant: &mut Mutant,
    epoch: i32,
    entries: &[u8],
    buffer: &mut [u8],
    report: impl Fn(&Snapshot, &[u8], &[Why]) -> Option<u16>,
) -> Reply {
    let mut copy = mutant.group.clone();
    let reply = Coordinator::install(&mut copy, epoch, entries, &mut buffer.to_vec());
    if entries.len() != SLOTS || is_refused(reply, 1004) || is_refused(reply, 1005) {
        return reply;
    }
    let group = Snapshot::of(&mutant.group);
    let bad: Vec<Why> = bad_entries(entries, &group).collect();
    match report(&group, entries, &bad) {
        Some(slot) => bad_target(slot),
        None => mutant.group.install_partial(epoch, entries, buffer).into(),
    }
}

fn bad_target(slot: u16) -> Reply {
    Reply {
        answer: Answer::Refused {
            number: 1006,
            slot: Some(slot),
        },
        written: 0,
    }
}

fn is_left(why: &Why) -> bool {
    why.reason == Reason::LeftOver
}

fn first(bad: &[Why], is: impl Fn(&Why) -> bool) -> Option<u16> {
    bad.iter().find(|why| is(why)).and_then(|why| why.slot)
}

/// The first bad slot, where those without an owner are taken for left over too for which this holds,
/// by the group, the topic and the partition.
fn first_with(
    group: &Snapshot,
    entries: &[u8],
    bad: &[Why],
    is: impl Fn(&Snapshot, u8, usize) -> bool,
) -> Option<u16> {
    let none = (0..SLOTS).filter(|&slot| entries[slot] == NO_PLACE);
    let mut more = none.filter(|slot| is(group, (slot / PARTITIONS) as u8, slot % PARTITIONS));
    let more = more.next().map(|slot| slot as u16);
    more.into_iter().chain(first(bad, |_| true)).min()
}

fn is_subscribed(group: &Snapshot, topic: u8) -> bool {
    let mut members = group.members.iter();
    members.any(|(_, member)| member.subscribes_to(topic))
}

fn count(group: &Snapshot, topic: u8) -> usize {
    let topic = group.topic_at(topic.into());
    topic.map_or(0, |topic| topic.count.into())
}

macro_rules! reports {
    ($($test:ident: $report:expr;)*) => {
        $(
            #[test]
            fn $test() {
                const REPORTS: Reports = Reports($report);
                caught_on_each(&REPORTS, Check::Table);
            }
        )*
    };
}

reports! {
    the_rule_not_applied: |_, _, bad| first(bad, |why| !is_left(why));
    a_topic_nobody_subscribes_to_left_over: |group, entries, bad| {
        first_with(group, entries, bad, |group, topic, partition| {
            partition < count(group, topic)
        })
    };
    slots_past_a_topics_count_left_over: |group, entries, bad| {
        first_with(group, entries, bad, |group, topic, _| {
            is_subscribed(group, topic) && count(group, topic) > 0
        })
    };
    the_slot_after_a_topics_last_left_over: |group, entries, bad| {
        first_with(group, entries, bad, |group, topic, partition| {
            is_subscribed(group, topic) && partition == count(group, topic) && partition > 0
        })
    };
    a_topic_that_is_not_there_left_over: |group, entries, bad| {
        first_with(group, entries, bad, |group, topic, _| {
            is_subscribed(group, topic) && count(group, topic) == 0
        })
    };
    the_last_bad_slot_reported: |_, _, bad| bad.last().and_then(|why| why.slot);
    slots_left_over_reported_first: |_, _, bad| first(bad, is_left).or(first(bad, |_| true));
    slots_left_over_reported_last: |_, _, bad| {
        first(bad, |why| !is_left(why)).or(first(bad, |_| true))
    };
    the_first_slot_of_a_topic_not_looked_at: |_, _, bad| {
        first(bad, |why| !is_left(why) || why.slot.is_some_and(|slot| slot % 64 > 0))
    };
    the_last_slot_of_a_topic_not_looked_at: |group, _, bad| {
        let is_last = |slot: u16| usize::from(slot % 64) + 1 == count(group, (slot / 64) as u8);
        first(bad, |why| !is_left(why) || !why.slot.is_some_and(is_last))
    };
    the_subscriptions_of_one_member_alone: |group, _, bad| {
        let takes = |slot: u16| {
            let first = group.members.first();
            first.is_some_and(|(_, member)| member.subscribes_to((slot / 64) as u8))
        };
        first(bad, |why| !is_left(why) || why.slot.is_some_and(takes))
    };
}

#[test]
fn nothing_is_found_where_the_first_bad_slot_is_reported() {
    mutate(&Reports(|_, _, bad| first(bad, |_| true)));
    finds_nothing::<Mutant>();
}

/// Counts what anybody ever subscribed to.
struct CountsGone;

impl Mutation for CountsGone {
    fn heartbeat(&self, mutant: &mut Mutant, beat: &Beat, lent: &mut Lent) -> Reply {
        let reply = mutant.take(beat, lent);
        if let (false, Some(topics)) = (reply.answer.is_refusal(), beat.subscription) {
            mutant.number |= i32::from(topics);
        }
        reply
    }

    fn install(&self, mutant: &mut Mutant, epoch: i32, entries: &[u8], buffer: &mut [u8]) -> Reply {
        let ever = mutant.number;
        reporting(mutant, epoch, entries, buffer, |group, entries, bad| {
            first_with(group, entries, bad, |group, topic, partition| {
                ever >> topic & 1 == 1 && partition < count(group, topic)
            })
        })
    }
}

#[test]
fn the_subscriptions_of_members_that_are_gone() {
    caught_on_each(&CountsGone, Check::Table);
}

/// Tried before 1005.
struct BeforeAlready;

impl Mutation for BeforeAlready {
    fn install(&self, mutant: &mut Mutant, epoch: i32, entries: &[u8], buffer: &mut [u8]) -> Reply {
        let reply = Coordinator::install(&mut mutant.group, epoch, entries, buffer);
        if !is_refused(reply, 1005) {
            return reply;
        }
        let group = Snapshot::of(&mutant.group);
        let bad: Vec<Why> = bad_entries(entries, &group).collect();
        first(&bad, is_left).map_or(reply, bad_target)
    }
}

#[test]
fn the_rule_before_already() {
    caught_on_each(&BeforeAlready, Check::Table);
}

/// Tried after 1003.
struct AfterRoom;

impl Mutation for AfterRoom {
    fn install(&self, mutant: &mut Mutant, epoch: i32, entries: &[u8], buffer: &mut [u8]) -> Reply {
        let mut copy = mutant.group.clone();
        let partial: Reply = copy
            .install_partial(epoch, entries, &mut buffer.to_vec())
            .into();
        match is_refused(partial, 1003) {
            true => partial,
            false => Coordinator::install(&mut mutant.group, epoch, entries, buffer),
        }
    }
}

#[test]
fn the_rule_after_room() {
    caught_on_each(&AfterRoom, Check::Table);
}
