//! The name of a refusal and, in a sentence, why it was given. A refusal changes nothing, so the
//! group is as it was when the event came.

use crate::coordinator::{Group, Refusal};
use crate::event::{Beat, Event, Lent};
use crate::group::{exists, holds, member_with, members, subscribes};
use crate::group::{NO_PLACE, PARTITIONS, PLACES, SLOTS, TOPICS};
use crate::id;

const LARGEST_TIMEOUT: i32 = 1_800_000;

/// 01's name.
pub fn name(refusal: Refusal) -> &'static str {
    match refusal {
        Refusal::Clock => "CLOCK",
        Refusal::InvalidRequest => "INVALID_REQUEST",
        Refusal::UnknownMemberId => "UNKNOWN_MEMBER_ID",
        Refusal::GroupMaxSizeReached => "GROUP_MAX_SIZE_REACHED",
        Refusal::FencedMemberEpoch => "FENCED_MEMBER_EPOCH",
        Refusal::BadTarget { .. } => "BAD_TARGET",
        Refusal::Stale => "STALE",
        Refusal::Already => "ALREADY",
        Refusal::BadTopic => "BAD_TOPIC",
        Refusal::EpochEnd => "EPOCH_END",
        Refusal::Room => "ROOM",
    }
}

pub fn why(refusal: Refusal, event: &Event, lent: Lent, group: &Group) -> String {
    match (refusal, event) {
        (Refusal::Clock, Event::Heartbeat(Beat { tick, .. }) | Event::Sweep { tick }) => {
            clock(tick.seen_from(group.last_tick()), group.last_tick())
        }
        (Refusal::InvalidRequest, Event::Heartbeat(beat)) => invalid(beat, group),
        (Refusal::UnknownMemberId, Event::Heartbeat(beat)) => {
            format!("no member has the ID {}", id::show(&beat.id))
        }
        (Refusal::FencedMemberEpoch, Event::Heartbeat(beat)) => fenced(beat, group),
        (Refusal::BadTarget { slot }, Event::Install { entries, .. }) => {
            bad_target(slot, entries, group)
        }
        (Refusal::Stale, Event::Install { epoch, .. }) => {
            let current = group.epoch();
            format!("the install is for epoch {epoch}, and the group is at {current}")
        }
        (Refusal::BadTopic, Event::Topic { number, id, count }) => {
            bad_topic(*number, id, *count, group)
        }
        (Refusal::Room, _) => room(event, lent, group),
        _ => in_general(refusal).into(),
    }
}

/// What can be said without a look at the event.
fn in_general(refusal: Refusal) -> &'static str {
    match refusal {
        Refusal::Clock => "the tick is before the group's last one",
        Refusal::InvalidRequest => "the heartbeat is not well formed",
        Refusal::UnknownMemberId => "no member has this ID",
        Refusal::GroupMaxSizeReached => "all 32 places are taken",
        Refusal::FencedMemberEpoch => "the epoch is not the member's",
        Refusal::BadTarget { .. } => "the list is not a target for this group",
        Refusal::Stale => "the install is not for the group's current epoch",
        Refusal::Already => "the target is for the group's current epoch already",
        Refusal::BadTopic => "this cannot be a topic of the group",
        Refusal::EpochEnd => "the group's epoch is 2147483647 and cannot rise",
        Refusal::Room => "the records or the slots don't fit what was lent",
    }
}

fn clock(tick: u32, last: u32) -> String {
    let behind = last.wrapping_sub(tick);
    format!("tick {tick} is {behind} ms before the group's last tick, {last}")
}

/// The first row 42, then the second.
fn invalid(beat: &Beat, group: &Group) -> String {
    let malformed = malformed(beat).or_else(|| match beat.epoch {
        0 => malformed_join(beat).map(String::from),
        _ => not_held(beat, group),
    });
    malformed.unwrap_or_else(|| in_general(Refusal::InvalidRequest).into())
}

fn malformed(beat: &Beat) -> Option<String> {
    let timeout = beat.timeout;
    if beat.id == [0; 16] {
        return Some("the ID is all zeros".into());
    }
    if beat.epoch < -1 {
        return Some(format!("the epoch is {}, below -1", beat.epoch));
    }
    if timeout != -1 && !(1..=LARGEST_TIMEOUT).contains(&timeout) {
        return Some(format!(
            "the timeout is {timeout}, not 1 to {LARGEST_TIMEOUT} ms"
        ));
    }
    let list = beat.owned.as_deref()?;
    if let Some(pair) = list.windows(2).find(|pair| pair[0] >= pair[1]) {
        let (one, next) = (pair[0], pair[1]);
        return Some(format!("the list does not rise: {next} comes after {one}"));
    }
    let above = list.iter().find(|&&slot| slot >= SLOTS)?;
    Some(format!(
        "the list has {above}, above the last slot, {}",
        SLOTS - 1
    ))
}

fn malformed_join(beat: &Beat) -> Option<&'static str> {
    match beat {
        beat if beat.subscription.is_none() => Some("a join gives its topics, and this gives none"),
        beat if beat.timeout == -1 => Some("a join gives a timeout, and this gives none"),
        beat => match beat.owned.as_deref() {
            None => Some("a join gives an empty list, and this gives no list"),
            Some([]) => None,
            Some(_) => Some("a join gives an empty list, and this one has slots"),
        },
    }
}

fn not_held(beat: &Beat, group: &Group) -> Option<String> {
    let member = member_with(group, &beat.id)?;
    let list = beat.owned.as_deref()?;
    let slot = list.iter().find(|slot| !holds(&member, **slot))?;
    let id = id::show(&beat.id);
    Some(format!(
        "{} is listed, and {id} does not hold it",
        named(*slot)
    ))
}

fn fenced(beat: &Beat, group: &Group) -> String {
    match member_with(group, &beat.id) {
        Some(member) => format!(
            "the heartbeat is at epoch {}, and {} is at {}",
            beat.epoch,
            id::show(&beat.id),
            member.epoch
        ),
        None => in_general(Refusal::FencedMemberEpoch).into(),
    }
}

fn bad_target(slot: u16, entries: &[u8], group: &Group) -> String {
    if entries.len() != usize::from(SLOTS) {
        return format!("the list has {} entries, not {SLOTS}", entries.len());
    }
    let reason = match entries.get(usize::from(slot)) {
        Some(&NO_PLACE) => left_over(slot, group),
        Some(&place) => misplaced(slot, place, group),
        None => None,
    };
    reason.unwrap_or_else(|| in_general(Refusal::BadTarget { slot }).into())
}

/// The first of 01's reasons, in the order of its words.
fn misplaced(slot: u16, place: u8, group: &Group) -> Option<String> {
    let topic = slot / PARTITIONS;
    let because = match group.member_at(place) {
        _ if place >= PLACES => format!("the last place is p{}", PLACES - 1),
        None => format!("p{place} is empty"),
        Some(_) if !exists(group, slot) => "the slot does not exist".into(),
        Some(member) if !subscribes(&member, topic) => {
            format!("{} does not subscribe to t{topic}", id::show(&member.id))
        }
        Some(_) => return None,
    };
    Some(format!("{} cannot go to p{place}: {because}", named(slot)))
}

/// 02's: "an existing slot has no owner while some member subscribes to its topic".
fn left_over(slot: u16, group: &Group) -> Option<String> {
    if !exists(group, slot) {
        return None;
    }
    let topic = slot / PARTITIONS;
    let members = members(group).into_iter();
    let mut subscribers = members.filter(|(_, member)| subscribes(member, topic));
    let (place, member) = subscribers.next()?;
    let first = format!("p{place} ({})", id::show(&member.id));
    let who = match subscribers.count() {
        0 => format!("{first} subscribes"),
        more => format!("{first} and {more} more subscribe"),
    };
    let slot = named(slot);
    Some(format!(
        "{slot} is left over: {who} to t{topic}, and the target gives it to nobody"
    ))
}

fn bad_topic(number: u32, id: &[u8; 16], count: u32, group: &Group) -> String {
    if number >= TOPICS.into() {
        return format!("the number is {number}, above the last, {}", TOPICS - 1);
    }
    if !(1..=PARTITIONS.into()).contains(&count) {
        return format!("the count is {count}, not 1 to {PARTITIONS}");
    }
    if *id == [0; 16] {
        return "the ID is all zeros".into();
    }
    let name = id::show(id);
    let has_id = |topic: &u8| group.topic_at(*topic).is_some_and(|topic| topic.id == *id);
    let owner = (0..TOPICS).find(has_id);
    if let Some(other) = owner.filter(|other| u32::from(*other) != number) {
        return format!("{name} is the ID of topic {other}");
    }
    let known = u8::try_from(number)
        .ok()
        .and_then(|number| group.topic_at(number));
    match known {
        Some(known) if known.id != *id => {
            format!(
                "topic {number} has the ID {}, not {name}",
                id::show(&known.id)
            )
        }
        Some(known) => format!("the count falls from {} to {count}", known.count),
        None => in_general(Refusal::BadTopic).into(),
    }
}

/// What the event would have taken, by running it on a copy of the group with enough lent.
fn room(event: &Event, lent: Lent, group: &Group) -> String {
    let enough = event.run(&mut group.clone(), Lent::ENOUGH);
    let (bytes, slots) = (enough.bytes.len(), enough.slots.len());
    if bytes > lent.bytes {
        format!(
            "the records take {bytes} bytes, and {} were lent",
            lent.bytes
        )
    } else if slots > lent.entries {
        format!(
            "the answer has {slots} slots, and {} entries were lent",
            lent.entries
        )
    } else {
        in_general(Refusal::Room).into()
    }
}

/// A slot by number, and by topic and partition.
fn named(slot: u16) -> String {
    format!("slot {slot} (t{}:{})", slot / PARTITIONS, slot % PARTITIONS)
}

#[cfg(test)]
mod tests;
