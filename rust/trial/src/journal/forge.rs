//! Batches put together from records, with an eye on the group: for each kind of event about what it
//! would write, with something amiss now and then, and at times records of any sort.

use crate::coordinator::Coordinator;
use crate::data::{Id, Member, Topic, PARTITIONS, SLOTS, ZERO_ID};
use crate::generate::new_id;
use crate::random::Random;
use crate::reader::Record;
use crate::snapshot::Snapshot;

/// One of so many decisions goes wrong.
const WRONG: usize = 12;

pub struct Forge {
    group: Snapshot,
    /// What there is, target or no target.
    slots: Vec<u16>,
    random: Random,
}

/// A member, its place and its target.
struct Seat {
    place: u8,
    member: Member,
    target: Vec<u16>,
}

impl Forge {
    pub fn new<C: Coordinator>(group: &C, random: Random) -> Forge {
        let group = Snapshot::of(group);
        let exist = |(number, topic): &(u8, Topic)| {
            let first = u16::from(*number) * PARTITIONS as u16;
            first..first + u16::from(topic.count)
        };
        let slots = group.topics.iter().flat_map(exist).collect();
        Forge {
            group,
            slots,
            random,
        }
    }

    pub fn batch(&mut self) -> Vec<Record> {
        match self.random.below(12) {
            0 | 1 => self.topic(),
            2 | 3 => self.install(),
            4 => self.removal(),
            5 | 6 => self.join(),
            7..=10 => self.ordinary(),
            _ => self.anything(),
        }
    }

    fn topic(&mut self) -> Vec<Record> {
        let number = self.random.below(17) as u8;
        let known = self.group.topic_at(number.into());
        let count = known.map_or(0, |topic| u32::from(topic.count));
        let id = match (known, self.slips()) {
            (Some(topic), false) => topic.id,
            (None, false) => new_id(&mut self.random),
            (_, true) => self.any_id(),
        };
        let any = self.random.pick(&[0, 1, 64, 65, 127, 128]);
        let count = match self.slips() {
            true => any,
            false => self
                .random
                .between(count as usize + 1, PARTITIONS.max(count as usize + 1))
                as u32,
        };
        let mut members = self.group.members.iter();
        let is_subscribed = members.any(|(_, member)| number < 16 && member.subscribes_to(number));
        let mut records = vec![Record::Topic { number, id, count }];
        if self.mostly(is_subscribed) {
            records.push(self.raise());
        }
        records
    }

    fn install(&mut self) -> Vec<Record> {
        let mut targets = self.group.targets[..SLOTS].to_vec();
        let seats = self.seats();
        let changes = self.random.below(5);
        for _ in 0..changes {
            if let (Some(slot), Some(place)) = (self.any_slot(), self.any_place()) {
                let none = crate::snapshot::NO_TARGET;
                targets[usize::from(slot)] = self.random.pick(&[place.into(), place.into(), none]);
            }
        }
        let mut records = Vec::new();
        for seat in &seats {
            let is_its = |slot: &u16| targets[usize::from(*slot)] == u16::from(seat.place);
            let slots: Vec<u16> = (0..SLOTS as u16).filter(is_its).collect();
            if self.mostly(slots != seat.target) {
                let place = seat.place;
                let slots = self.noisy(slots);
                records.push(Record::Target { place, slots });
            }
        }
        if self.slips() && records.len() > 1 {
            self.random.shuffle(&mut records);
        }
        let (epoch, target_epoch) = (self.group.epoch as u32, self.group.target_epoch as u32);
        let other = self.random.pick(&[epoch.wrapping_add(1), target_epoch, 0]);
        records.push(Record::TargetEpoch(if self.slips() {
            other
        } else {
            epoch
        }));
        records
    }

    fn removal(&mut self) -> Vec<Record> {
        let mut seats = self.seats();
        let one_of = self.random.between(1, 4);
        seats.retain(|_| self.random.chance(1, one_of));
        if self.slips() {
            self.random.shuffle(&mut seats);
        }
        let mut records = Vec::new();
        for seat in &seats {
            let place = seat.place;
            records.push(Record::AssignmentGone { place });
            if self.mostly(!seat.target.is_empty()) {
                let slots = Vec::new();
                records.push(Record::Target { place, slots });
            }
            let place = if self.slips() {
                self.other_place()
            } else {
                place
            };
            records.push(Record::MemberGone { place });
        }
        if self.mostly(self.group.epoch < i32::MAX) {
            records.push(self.raise());
        }
        records
    }

    fn join(&mut self) -> Vec<Record> {
        let seat = self.some_seat().filter(|_| self.random.chance(1, 2));
        let taken = |place: &u8| self.group.member_at(*place).is_some();
        let lowest = (0..=u8::MAX).find(|place| !taken(place)).unwrap_or(0);
        let (place, id, has_target) = match seat {
            Some(seat) => (seat.place, seat.member.id, !seat.target.is_empty()),
            None => (lowest, new_id(&mut self.random), false),
        };
        let place = if self.slips() {
            self.other_place()
        } else {
            place
        };
        let id = if self.slips() { self.any_id() } else { id };
        let mut records = Vec::new();
        if self.mostly(has_target) {
            let slots = self.noisy(Vec::new());
            records.push(Record::Target { place, slots });
        }
        let timeout = self.timeout(300);
        let subscription = self.random.next() as u16;
        let subscription = self.subscription(subscription);
        records.push(Record::Member {
            place,
            id,
            timeout,
            subscription,
        });
        let epoch = self.new_epoch();
        records.push(Record::GroupEpoch(epoch));
        let epoch = if self.slips() {
            self.new_epoch()
        } else {
            epoch
        };
        let (assigned, revoking) = (self.noisy(Vec::new()), self.noisy(Vec::new()));
        let place = if self.slips() {
            self.other_place()
        } else {
            place
        };
        records.push(Record::Assignment {
            place,
            epoch,
            assigned,
            revoking,
        });
        records
    }

    fn ordinary(&mut self) -> Vec<Record> {
        let Some(seat) = self.some_seat() else {
            return self.anything();
        };
        let mut records = Vec::new();
        let stored = seat.member.subscription;
        let bit = 1 << self.random.below(16);
        let other = self.random.pick(&[stored ^ bit, stored]);
        if self.random.chance(1, 2) {
            let id = if self.slips() {
                self.any_id()
            } else {
                seat.member.id
            };
            let timeout = self.timeout(seat.member.timeout);
            let subscription = self.subscription(other);
            let place = seat.place;
            records.push(Record::Member {
                place,
                id,
                timeout,
                subscription,
            });
            if self.mostly(subscription != u32::from(stored)) {
                records.push(self.raise());
            }
        } else if self.slips() {
            records.push(self.raise());
        }
        if self.random.chance(2, 3) {
            records.push(self.moved(&seat));
        }
        records
    }

    /// About what step 3 leaves.
    fn moved(&mut self, seat: &Seat) -> Record {
        let (member, target) = (&seat.member, &seat.target);
        let is_within = |slot: &u16| target.contains(slot);
        let (kept, outside): (Vec<u16>, Vec<u16>) =
            member.assigned.iter().partition(|s| is_within(s));
        let (epoch, assigned, revoking) = if self.mostly(!outside.is_empty()) {
            (member.epoch, kept, outside)
        } else {
            let others = self
                .group
                .members
                .iter()
                .filter(|(at, _)| *at != seat.place);
            let held: Vec<u16> = others.flat_map(|(_, other)| other.held()).collect();
            let free = target.iter().copied().filter(|slot| !held.contains(slot));
            let epoch = member.epoch.max(self.group.target_epoch);
            (epoch, free.collect(), Vec::new())
        };
        let place = if self.slips() {
            self.other_place()
        } else {
            seat.place
        };
        let near = epoch as u32 + self.random.below(2) as u32;
        let other = self
            .random
            .pick(&[member.epoch as u32, self.group.epoch as u32, near]);
        let epoch = if self.slips() { other } else { epoch as u32 };
        let revoking = if self.slips() {
            member.revoking.clone()
        } else {
            revoking
        };
        let (assigned, revoking) = (self.noisy(assigned), self.noisy(revoking));
        Record::Assignment {
            place,
            epoch: epoch.max(1),
            assigned,
            revoking,
        }
    }

    fn anything(&mut self) -> Vec<Record> {
        let count = self.random.between(1, 4);
        (0..count).map(|_| self.any_record()).collect()
    }

    pub fn any_record(&mut self) -> Record {
        let place = match self.random.chance(1, 4) {
            true => self.other_place(),
            false => self.any_place().unwrap_or(0),
        };
        let slots = self.some_slots();
        let id = self.any_id();
        match self.random.below(8) {
            0 => Record::GroupEpoch(self.new_epoch()),
            1 => Record::Topic {
                number: place,
                id,
                count: self.random.between(0, 65) as u32,
            },
            2 => Record::Member {
                place,
                id,
                timeout: self.timeout(1),
                subscription: self.subscription(1),
            },
            3 => Record::MemberGone { place },
            4 => Record::TargetEpoch(self.group.epoch as u32),
            5 => Record::Target { place, slots },
            6 => Record::Assignment {
                place,
                epoch: self.new_epoch().max(1),
                assigned: slots,
                revoking: self.some_slots(),
            },
            _ => Record::AssignmentGone { place },
        }
    }

    fn slips(&mut self) -> bool {
        self.random.chance(1, WRONG)
    }

    fn mostly(&mut self, right: bool) -> bool {
        right != self.slips()
    }

    fn raise(&mut self) -> Record {
        Record::GroupEpoch(self.new_epoch())
    }

    /// Mostly G and one more.
    fn new_epoch(&mut self) -> u32 {
        let epoch = self.group.epoch as u32;
        let other = self
            .random
            .pick(&[epoch, epoch + 2, 0, self.group.target_epoch as u32]);
        if self.slips() {
            other
        } else {
            epoch + 1
        }
    }

    fn timeout(&mut self, stored: u32) -> u32 {
        let other = self
            .random
            .pick(&[0, 1, 300, 1_800_000, 1_800_001, stored + 1]);
        self.random.pick(&[stored, stored, other])
    }

    fn subscription(&mut self, right: u16) -> u32 {
        match self.slips() {
            true => self.random.pick(&[65_535, 65_536, 0, 1]),
            false => right.into(),
        }
    }

    fn any_id(&mut self) -> Id {
        let fresh = new_id(&mut self.random);
        let member = self.some_seat().map_or(fresh, |seat| seat.member.id);
        let topics = &self.group.topics;
        let topic = topics.get(self.random.below(topics.len()));
        let topic = topic.map_or(ZERO_ID, |(_, topic)| topic.id);
        self.random.pick(&[fresh, member, member, topic, ZERO_ID])
    }

    fn any_place(&mut self) -> Option<u8> {
        let members = &self.group.members;
        members
            .get(self.random.below(members.len()))
            .map(|(place, _)| *place)
    }

    fn other_place(&mut self) -> u8 {
        let any = self.random.below(34) as u8;
        self.random.pick(&[0, 1, 2, 31, 32, 127, 128, 255, any])
    }

    /// One that exists, mostly.
    fn any_slot(&mut self) -> Option<u16> {
        let any = self.random.below(SLOTS) as u16;
        let known = self.slots.get(self.random.below(self.slots.len())).copied();
        match self.slips() {
            true => Some(any),
            false => known,
        }
    }

    fn some_slots(&mut self) -> Vec<u16> {
        let count = self.random.below(4);
        let mut slots: Vec<u16> = (0..count).filter_map(|_| self.any_slot()).collect();
        slots.sort_unstable();
        slots.dedup();
        slots
    }

    /// With a slot more or less, now and then.
    fn noisy(&mut self, mut slots: Vec<u16>) -> Vec<u16> {
        if self.slips() {
            if let Some(slot) = self.any_slot() {
                toggle(&mut slots, slot);
            }
        }
        slots
    }

    fn seats(&self) -> Vec<Seat> {
        let members = self.group.members.iter();
        members.filter_map(|(place, _)| self.seat(*place)).collect()
    }

    fn some_seat(&mut self) -> Option<Seat> {
        let place = self.any_place()?;
        self.seat(place)
    }

    fn seat(&self, place: u8) -> Option<Seat> {
        let member = self.group.member_at(place)?.clone();
        let is_its = |slot: &u16| self.group.targets[usize::from(*slot)] == u16::from(place);
        let target = (0..SLOTS as u16).filter(is_its).collect();
        Some(Seat {
            place,
            member,
            target,
        })
    }
}

/// Puts the slot into the rising list, or takes it out.
pub fn toggle(slots: &mut Vec<u16>, slot: u16) {
    match slots.binary_search(&slot) {
        Ok(at) => {
            slots.remove(at);
        }
        Err(at) => slots.insert(at, slot),
    }
}
