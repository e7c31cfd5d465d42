//! The whole group by its parts, taken through the accessors that every coordinator has. One
//! snapshot is used again and again, so that taking it after every event stays cheap.

use crate::coordinator::Coordinator;
use crate::data::{Id, Member, Topic, PARTITIONS, SLOTS, TOPICS};
use crate::slots::SlotSet;

/// No place, apart from every place that a coordinator might name.
pub const NO_TARGET: u16 = 256;
/// Numbers beyond the topics and slots there are, where nothing may be found.
const BEYOND_TOPICS: u8 = 32;
const BEYOND_SLOTS: [u16; 3] = [1_024, 2_000, 65_535];

#[derive(Clone, PartialEq, Eq, Debug, Default)]
pub struct Snapshot {
    pub epoch: i32,
    pub target_epoch: i32,
    pub last_tick: u32,
    /// By rising number.
    pub topics: Vec<(u8, Topic)>,
    /// By rising place.
    pub members: Vec<(u8, Member)>,
    /// By slot.
    pub targets: Vec<u16>,
}

impl Snapshot {
    pub fn of<C: Coordinator>(group: &C) -> Snapshot {
        let mut snapshot = Snapshot::default();
        snapshot.take(group);
        snapshot
    }

    pub fn take<C: Coordinator>(&mut self, group: &C) {
        self.epoch = group.epoch();
        self.target_epoch = group.target_epoch();
        self.last_tick = group.last_tick();
        self.topics.clear();
        for number in (0..BEYOND_TOPICS).chain([u8::MAX]) {
            self.topics
                .extend(group.topic_at(number).map(|topic| (number, topic)));
        }
        self.members.clear();
        for place in 0..=u8::MAX {
            self.members
                .extend(group.member_at(place).map(|member| (place, member)));
        }
        let target = |slot| group.target_of(slot).map_or(NO_TARGET, u16::from);
        self.targets.clear();
        self.targets.extend((0..SLOTS as u16).map(target));
        self.targets.extend(BEYOND_SLOTS.map(target));
    }

    pub fn member(&self, id: &Id) -> Option<&Member> {
        let mut members = self.members.iter();
        members
            .find(|(_, member)| member.id == *id)
            .map(|(_, member)| member)
    }

    pub fn member_at(&self, place: u8) -> Option<&Member> {
        let mut members = self.members.iter();
        members
            .find(|(at, _)| *at == place)
            .map(|(_, member)| member)
    }

    pub fn topic_at(&self, number: u32) -> Option<Topic> {
        let mut topics = self.topics.iter();
        topics
            .find(|(at, _)| u32::from(*at) == number)
            .map(|(_, topic)| *topic)
    }

    /// The slots that exist and to whose topic some member subscribes, rising: those of which an
    /// install must leave none over.
    pub fn wanted(&self) -> impl Iterator<Item = u16> + '_ {
        let members = self.members.iter();
        let topics = members.fold(0, |all, (_, member)| all | member.subscription);
        let is_wanted = move |number: u8| number < TOPICS && topics >> number & 1 == 1;
        let wanted = self
            .topics
            .iter()
            .filter(move |(number, _)| is_wanted(*number));
        wanted.flat_map(|(number, topic)| {
            let first = u16::from(*number) * PARTITIONS as u16;
            first..first + u16::from(topic.count)
        })
    }

    /// Those of them that the target gives to nobody, rising.
    pub fn holes(&self) -> Vec<u16> {
        let is_hole = |slot: &u16| self.targets[usize::from(*slot)] == NO_TARGET;
        self.wanted().filter(is_hole).collect()
    }

    /// "After each event no slot is held twice."
    pub fn held_once(&self) -> Result<(), String> {
        let mut seen = SlotSet::default();
        for (place, member) in &self.members {
            for part in [&member.assigned, &member.revoking] {
                let set = SlotSet::of(part)
                    .map_err(|number| format!("place {place} holds {number}, which is no slot"))?;
                if let Some(slot) = seen.common(&set) {
                    return Err(format!("slot {slot} is held twice"));
                }
                seen.add(&set);
            }
        }
        Ok(())
    }

    /// The first part in which two groups differ, in words; None where they are equal.
    pub fn difference(&self, other: &Snapshot) -> Option<String> {
        if self == other {
            return None;
        }
        let numbers = [
            ("G", self.epoch, other.epoch),
            ("T", self.target_epoch, other.target_epoch),
        ];
        for (name, ours, theirs) in numbers {
            if ours != theirs {
                return Some(format!("{name} is {ours} and {theirs}"));
            }
        }
        let (ours, theirs) = (self.last_tick, other.last_tick);
        if ours != theirs {
            return Some(format!("the last tick is {ours} and {theirs}"));
        }
        if self.topics != other.topics {
            return Some(format!("topics {:?} and {:?}", self.topics, other.topics));
        }
        for place in 0..=u8::MAX {
            let (ours, theirs) = (self.member_at(place), other.member_at(place));
            if ours != theirs {
                let words = |member: Option<&Member>| match member {
                    Some(member) => member.to_string(),
                    None => "nobody".into(),
                };
                let (ours, theirs) = (words(ours), words(theirs));
                return Some(format!("place {place} has {ours}; and {theirs}"));
            }
        }
        let slot =
            (0..self.targets.len()).find(|&slot| self.targets[slot] != other.targets[slot])?;
        let (ours, theirs) = (self.targets[slot], other.targets[slot]);
        let none = format!("({NO_TARGET}: none)");
        Some(format!("target entry {slot} is {ours} and {theirs} {none}"))
    }
}
