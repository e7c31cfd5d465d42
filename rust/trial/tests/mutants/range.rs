//! Request 4's range target altered: who gets a partition, how many, and in which order.

use std::cmp::Reverse;

use trial::data::{Id, Reply, NO_PLACE, PARTITIONS, SLOTS, TOPICS};
use trial::snapshot::Snapshot;
use trial::trial::Check;
use trial::Coordinator;

use super::mutant::*;
use super::{caught_on_each, finds_nothing};

/// Of each topic, what becomes of its sixty-four entries, which are none at first.
struct Ranges(fn(&Topic, &mut [u8]));

struct Topic<'a> {
    group: &'a Snapshot,
    number: u8,
    /// Partitions.
    count: usize,
}

impl Mutation for Ranges {
    fn range_target(&self, mutant: &Mutant) -> [u8; SLOTS] {
        let group = &Snapshot::of(&mutant.group);
        let mut entries = [NO_PLACE; SLOTS];
        for (number, entries) in (0..TOPICS).zip(entries.chunks_mut(PARTITIONS)) {
            let topic = group.topic_at(number.into());
            let topic = Topic {
                group,
                number,
                count: topic.map_or(0, |topic| topic.count.into()),
            };
            self.0(&topic, entries);
        }
        entries
    }
}

impl Topic<'_> {
    /// All members, subscribed or not.
    fn members(&self) -> Vec<(Id, u8)> {
        let members = self.group.members.iter();
        members.map(|(place, member)| (member.id, *place)).collect()
    }

    fn takes(&self, place: u8) -> bool {
        let member = self.group.member_at(place);
        member.is_some_and(|member| member.subscribes_to(self.number))
    }

    /// The places of its subscribers, by what the key makes of ID and place.
    fn by<K: Ord>(&self, key: impl Fn(Id, u8) -> K) -> Vec<u8> {
        let mut members = self.members();
        members.retain(|(_, place)| self.takes(*place));
        members.sort_by_key(|(id, place)| key(*id, *place));
        members.into_iter().map(|(_, place)| place).collect()
    }

    fn by_id(&self) -> Vec<u8> {
        self.by(|id, _| id)
    }

    /// The share of each of so many, and how many get one more.
    fn shares(&self, among: usize) -> (usize, usize) {
        let among = among.max(1);
        (self.count / among, self.count % among)
    }
}

/// Runs of these sizes, one place after another.
fn give(entries: &mut [u8], places: &[u8], size: impl Fn(usize) -> usize) {
    let mut rest = entries;
    for (at, place) in places.iter().enumerate() {
        let (run, others) = rest.split_at_mut(size(at).min(rest.len()));
        run.fill(*place);
        rest = others;
    }
}

/// As it should be, but for the order of the places.
fn give_in_order(topic: &Topic, entries: &mut [u8], places: &[u8]) {
    let (share, more) = topic.shares(places.len());
    give(entries, places, |at| share + usize::from(at < more));
}

macro_rules! ranges {
    ($($test:ident: $range:expr;)*) => {
        $(
            #[test]
            fn $test() {
                const RANGES: Ranges = Ranges($range);
                caught_on_each(&RANGES, Check::Range);
            }
        )*
    };
}

ranges! {
    the_last_get_one_more: |topic, entries| {
        let places = topic.by_id();
        let (share, more) = topic.shares(places.len());
        give(entries, &places, |at| share + usize::from(at + more >= places.len()));
    };
    the_first_gets_all_that_is_over: |topic, entries| {
        let places = topic.by_id();
        let (share, more) = topic.shares(places.len());
        give(entries, &places, |at| share + if at == 0 { more } else { 0 });
    };
    the_last_gets_what_is_left: |topic, entries| {
        let places = topic.by_id();
        let share = topic.count.div_ceil(places.len().max(1));
        give(&mut entries[..topic.count], &places, |_| share);
    };
    what_is_over_left_over: |topic, entries| {
        let places = topic.by_id();
        let (share, _) = topic.shares(places.len());
        give(entries, &places, |_| share);
    };
    by_place: |topic, entries| give_in_order(topic, entries, &topic.by(|_, place| place));
    by_falling_id: |topic, entries| {
        give_in_order(topic, entries, &topic.by(|id, _| Reverse(id)));
    };
    by_the_first_byte_of_the_id: |topic, entries| {
        give_in_order(topic, entries, &topic.by(|id, place| (id[0], place)));
    };
    by_all_but_the_last_byte_of_the_id: |topic, entries| {
        let places = topic.by(|id, place| (u128::from_be_bytes(id) >> 8, Reverse(place)));
        give_in_order(topic, entries, &places);
    };
    by_the_id_from_its_last_byte: |topic, entries| {
        give_in_order(topic, entries, &topic.by(|id, _| u128::from_le_bytes(id)));
    };
    by_the_id_with_signed_bytes: |topic, entries| {
        give_in_order(topic, entries, &topic.by(|id, _| id.map(|byte| byte as i8)));
    };
    by_turns: |topic, entries| {
        let places = topic.by_id();
        if !places.is_empty() {
            for (partition, entry) in entries[..topic.count].iter_mut().enumerate() {
                *entry = places[partition % places.len()];
            }
        }
    };
    beginning_with_another_in_each_topic: |topic, entries| {
        let mut places = topic.by_id();
        let first = usize::from(topic.number) % places.len().max(1);
        places.rotate_left(first);
        give_in_order(topic, entries, &places);
    };
    members_counted_that_do_not_subscribe: |topic, entries| {
        let places = topic.by_id();
        let (share, more) = topic.shares(topic.members().len());
        give(entries, &places, |at| share + usize::from(at < more));
    };
    partitions_for_members_that_do_not_subscribe: |topic, entries| {
        let mut members = topic.members();
        members.sort();
        let places: Vec<u8> = members.into_iter().map(|(_, place)| place).collect();
        give_in_order(topic, entries, &places);
    };
    partitions_above_the_count: |topic, entries| {
        let count = if topic.count > 0 { PARTITIONS } else { 0 };
        give_in_order(&Topic { count, ..*topic }, entries, &topic.by_id());
    };
    one_partition_above_the_count: |topic, entries| {
        let count = match topic.count {
            0 => 0,
            count => PARTITIONS.min(count + 1),
        };
        give_in_order(&Topic { count, ..*topic }, entries, &topic.by_id());
    };
    topics_that_are_not_there: |topic, entries| {
        let count = topic.count.max(1);
        give_in_order(&Topic { count, ..*topic }, entries, &topic.by_id());
    };
    the_last_partition_forgotten: |topic, entries| {
        give_in_order(topic, entries, &topic.by_id());
        entries[topic.count.saturating_sub(1)] = NO_PLACE;
    };
    the_last_topic_forgotten: |topic, entries| {
        if topic.number + 1 < TOPICS {
            give_in_order(topic, entries, &topic.by_id());
        }
    };
    a_topic_without_subscribers_given: |topic, entries| {
        let mut places = topic.by_id();
        if places.is_empty() {
            places.extend(topic.members().first().map(|(_, place)| place));
        }
        give_in_order(topic, entries, &places);
    };
    the_target_in_force_kept: |topic, entries| {
        give_in_order(topic, entries, &topic.by_id());
        let first = usize::from(topic.number) * PARTITIONS;
        let target = &topic.group.targets[first..first + topic.count];
        let owners = target.iter().map(|&place| place as u8);
        if target.iter().all(|&place| place < 32) && owners.clone().all(|place| topic.takes(place)) {
            for (entry, owner) in entries.iter_mut().zip(owners) {
                *entry = owner;
            }
        }
    };
}

#[test]
fn nothing_is_found_where_the_range_target_is_right() {
    mutate(&Ranges(|topic, entries| {
        give_in_order(topic, entries, &topic.by_id());
    }));
    finds_nothing::<Mutant>();
}

/// Changes what shows only where the group is compared as a value.
struct ChangesAtLook;

impl Mutation for ChangesAtLook {
    fn range_target(&self, mutant: &Mutant) -> [u8; SLOTS] {
        mutant.looks.set(mutant.looks.get() + 1);
        mutant.group.range_target()
    }
}

#[test]
fn a_group_changed_by_a_look() {
    caught_on_each(&ChangesAtLook, Check::Change);
}

/// Refuses an install of the range target that is lent just what it needs.
struct RefusesExactRange;

impl Mutation for RefusesExactRange {
    fn install(&self, mutant: &mut Mutant, epoch: i32, entries: &[u8], buffer: &mut [u8]) -> Reply {
        let mut copy = mutant.group.clone();
        let reply = Coordinator::install(&mut copy, epoch, entries, &mut buffer.to_vec());
        let is_exact = reply.written > 0 && reply.written == buffer.len();
        if is_exact && entries == mutant.group.range_target() {
            return refused(1003);
        }
        Coordinator::install(&mut mutant.group, epoch, entries, buffer)
    }
}

#[test]
fn a_range_target_that_finds_no_room() {
    caught_on_each(&RefusesExactRange, Check::Table);
}
