//! What a person wants to know of a group, read off it by its public parts.

use crate::coordinator::{Group, Id, Member};

pub const TOPICS: u8 = 16;
pub const PARTITIONS: u16 = 64;
pub const SLOTS: u16 = 1024;
pub const PLACES: u8 = 32;
/// An entry of an install that gives its slot to nobody.
pub const NO_PLACE: u8 = 255;

/// The members with their places, rising.
pub fn members(group: &Group) -> Vec<(u8, Member)> {
    let places = 0..PLACES;
    places
        .filter_map(|place| Some((place, group.member_at(place)?)))
        .collect()
}

pub fn member_with(group: &Group, id: &Id) -> Option<Member> {
    let members = members(group).into_iter();
    members
        .map(|(_, member)| member)
        .find(|member| member.id == *id)
}

pub fn holds(member: &Member, slot: u16) -> bool {
    member.assigned.contains(&slot) || member.revoking.contains(&slot)
}

pub fn subscribes(member: &Member, topic: u16) -> bool {
    member.subscription >> topic & 1 == 1
}

/// The partitions that a topic has; 0 if there is no such topic.
pub fn partitions(group: &Group, topic: u16) -> u16 {
    let topic = u8::try_from(topic)
        .ok()
        .and_then(|number| group.topic_at(number));
    topic.map_or(0, |topic| topic.count.into())
}

pub fn exists(group: &Group, slot: u16) -> bool {
    slot % PARTITIONS < partitions(group, slot / PARTITIONS)
}

/// The slots that exist and that nobody holds.
pub fn not_held(group: &Group) -> Vec<u16> {
    let members = members(group);
    let is_held = |slot| members.iter().any(|(_, member)| holds(member, slot));
    let slots = 0..SLOTS;
    slots
        .filter(|&slot| exists(group, slot) && !is_held(slot))
        .collect()
}

/// The slots of the place's target that the member at it does not hold.
pub fn awaited(group: &Group, place: u8, member: &Member) -> Vec<u16> {
    let slots = 0..SLOTS;
    slots
        .filter(|&slot| group.target_of(slot) == Some(place) && !holds(member, slot))
        .collect()
}
