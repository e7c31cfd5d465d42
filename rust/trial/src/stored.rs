//! The group as its stored records tell it: all but the ticks, which are not stored. A group that
//! is not the one its records tell, or changes without one, is found out here.

use std::collections::BTreeMap;

use crate::data::{Id, Member, Start, Topic, SLOTS};
use crate::reader::Record;
use crate::snapshot::{Snapshot, NO_TARGET};

#[derive(Clone)]
pub struct Stored {
    epoch: u32,
    target_epoch: u32,
    topics: BTreeMap<u8, (Id, u32)>,
    members: BTreeMap<u8, Holder>,
    targets: Vec<u16>,
}

#[derive(Clone, Default)]
struct Holder {
    id: Id,
    timeout: u32,
    subscription: u32,
    epoch: u32,
    assigned: Vec<u16>,
    revoking: Vec<u16>,
}

impl Stored {
    pub fn new(start: Start) -> Stored {
        let (epoch, target_epoch) = match start {
            Start::Fresh { .. } => (0, 0),
            Start::AtEpochs {
                epoch,
                target_epoch,
                ..
            } => (epoch as u32, target_epoch as u32),
        };
        Stored {
            epoch,
            target_epoch,
            topics: BTreeMap::new(),
            members: BTreeMap::new(),
            targets: vec![NO_TARGET; SLOTS],
        }
    }

    pub fn apply(&mut self, records: &[Record]) {
        for record in records {
            self.apply_one(record);
        }
    }

    fn apply_one(&mut self, record: &Record) {
        match record {
            Record::GroupEpoch(epoch) => self.epoch = *epoch,
            Record::TargetEpoch(epoch) => self.target_epoch = *epoch,
            Record::Topic { number, id, count } => {
                self.topics.insert(*number, (*id, *count));
            }
            Record::Member {
                place,
                id,
                timeout,
                subscription,
            } => {
                let member = self.members.entry(*place).or_default();
                member.id = *id;
                member.timeout = *timeout;
                member.subscription = *subscription;
            }
            Record::MemberGone { place } => {
                self.members.remove(place);
            }
            Record::Target { place, slots } => self.set_target(u16::from(*place), slots),
            Record::Assignment {
                place,
                epoch,
                assigned,
                revoking,
            } => self.assign(*place, *epoch, assigned, revoking),
            Record::AssignmentGone { place } => self.assign(*place, 0, &[], &[]),
        }
    }

    fn assign(&mut self, place: u8, epoch: u32, assigned: &[u16], revoking: &[u16]) {
        let member = self.members.entry(place).or_default();
        member.epoch = epoch;
        member.assigned = assigned.to_vec();
        member.revoking = revoking.to_vec();
    }

    fn set_target(&mut self, place: u16, slots: &[u16]) {
        for entry in &mut self.targets {
            if *entry == place {
                *entry = NO_TARGET;
            }
        }
        for &slot in slots {
            self.targets[usize::from(slot)] = place;
        }
    }

    /// Where the group is not the one that the records tell, in words.
    pub fn difference(&self, group: &Snapshot) -> Option<String> {
        let told = |what: &str| Some(format!("the records tell of {what}"));
        if i64::from(self.epoch) != i64::from(group.epoch) {
            return told("another G");
        }
        if i64::from(self.target_epoch) != i64::from(group.target_epoch) {
            return told("another T");
        }
        let topics = group.topics.iter();
        if !topics
            .map(of_topic)
            .eq(self.topics.iter().map(|(at, topic)| (*at, *topic)))
        {
            return told("other topics");
        }
        let members = group.members.iter().map(|(place, member)| (place, member));
        let is_same = |((at, told), (place, member)): ((&u8, &Holder), (&u8, &Member))| {
            at == place && told.is(member)
        };
        if self.members.len() != group.members.len()
            || !self.members.iter().zip(members).all(is_same)
        {
            return told("other members");
        }
        let in_range = group.targets.get(..SLOTS)?;
        (self.targets != in_range).then(|| "the records tell of another target".into())
    }
}

fn of_topic((number, topic): &(u8, Topic)) -> (u8, (Id, u32)) {
    (*number, (topic.id, topic.count.into()))
}

impl Holder {
    fn is(&self, member: &Member) -> bool {
        self.id == member.id
            && self.timeout == member.timeout
            && self.subscription == u32::from(member.subscription)
            && i64::from(self.epoch) == i64::from(member.epoch)
            && self.assigned == member.assigned
            && self.revoking == member.revoking
    }
}
