//! A second judge of batches, slow and for small groups: it tries every event there is, on the plain
//! coordinator, and a batch is good where one of them writes it. What `plain::journal` has in closed
//! form must be the same, and leave the same group. Installs may leave slots over: "Journals are read
//! without this rule."
//!
//! Every event: of those without an ID that the group has not seen there are few enough to try all.
//! The others, a new topic, a joiner and another timeout or subscription, are written with their ID
//! in the batch, so that it is enough to try the IDs and numbers that stand in it.

use std::collections::HashMap;

use super::agree::ReadBatch;
use super::older;
use crate::coordinator::Coordinator;
use crate::data::{Beat, Event, Id, Member, NO_PLACE, PARTITIONS, PLACES, ROOMY, SLOTS, TOPICS};
use crate::sides::Reference;

/// Any tick does, if the group has the same.
const TICK: u32 = 1_000_000;
const SESSION: u32 = 45_000;

/// Installs of a group for which all can be tried.
const MOST_INSTALLS: usize = 1_000;
/// Members of whom every set can be swept.
const MOST_SWEPT: usize = 6;

pub struct Judge {
    group: Reference,
    read_batch: ReadBatch,
    members: Vec<(u8, Member)>,
    /// What events of the group's own write, and the group after them.
    written: HashMap<Vec<u8>, Reference>,
}

impl Judge {
    /// None where there are too many events to try.
    pub fn of(group: &Reference, read_batch: ReadBatch) -> Option<Judge> {
        let mut group = group.clone();
        group.set_every_tick(TICK);
        let places = 0..PLACES;
        let members =
            places.filter_map(|place| Some((place, Coordinator::member_at(&group, place)?)));
        let mut judge = Judge {
            members: members.collect(),
            group,
            read_batch,
            written: HashMap::new(),
        };
        judge.try_installs()?;
        judge.try_sweeps();
        judge.try_known_members();
        Some(judge)
    }

    /// What the group's own events write.
    pub fn written(&self) -> impl Iterator<Item = &[u8]> {
        self.written.keys().map(Vec::as_slice)
    }

    /// The group after an event that writes the batch; None where none does.
    pub fn after(&self, batch: &[u8]) -> Option<Reference> {
        let after = self.written.get(batch).cloned();
        after
            .or_else(|| self.after_unseen(batch))
            .or_else(|| self.after_sweep(batch))
    }

    /// The same by the closed form.
    pub fn after_by_closed_form(&self, batch: &[u8]) -> Option<Reference> {
        let mut group = self.group.clone();
        let is_good = (self.read_batch)(&mut group, TICK, batch);
        assert!(
            is_good || group == self.group,
            "a refusal changed the group"
        );
        is_good.then_some(group)
    }

    /// All entries for the slots that somebody may have.
    fn try_installs(&mut self) -> Option<()> {
        let subscribes = |topic: u8| {
            let mut members = self.members.iter();
            members.any(|(_, member)| member.subscribes_to(topic))
        };
        let mut slots = Vec::new();
        for number in (0..TOPICS).filter(|&number| subscribes(number)) {
            let count = self.group.topic_at(number).map_or(0, |topic| topic.count);
            let first = usize::from(number) * PARTITIONS;
            slots.extend(first..first + usize::from(count));
        }
        let choices = self.members.len() + 1;
        let installs = choices.checked_pow(slots.len() as u32)?;
        if installs > MOST_INSTALLS {
            return None;
        }
        for mut which in 0..installs {
            let mut entries = vec![NO_PLACE; SLOTS];
            for &slot in &slots {
                let chosen = self.members.get(which % choices);
                entries[slot] = chosen.map_or(NO_PLACE, |(place, _)| *place);
                which /= choices;
            }
            let epoch = self.group.epoch();
            self.keep(&self.group.clone(), &Event::Install { epoch, entries });
        }
        Some(())
    }

    /// Every set of members is overdue at some ticks. Where there are many members, the sets are
    /// those that a batch names.
    fn try_sweeps(&mut self) {
        let places: Vec<u8> = self.members.iter().map(|(place, _)| *place).collect();
        if places.len() > MOST_SWEPT {
            return;
        }
        for set in 1..1_usize << places.len() {
            let chosen = places
                .iter()
                .enumerate()
                .filter(|(index, _)| set >> index & 1 == 1);
            let overdue = self.with_overdue(chosen.map(|(_, &place)| place));
            self.keep(&overdue, &Event::Sweep { tick: TICK });
        }
    }

    /// The group with these members overdue, and no others.
    fn with_overdue(&self, places: impl Iterator<Item = u8>) -> Reference {
        let mut group = self.group.clone();
        for place in places {
            group.set_ticks_of(place, TICK - SESSION);
        }
        group
    }

    /// Leaves, and ordinary heartbeats that give no more than a list.
    fn try_known_members(&mut self) {
        for (_, member) in self.members.clone() {
            let leaves = beat(member.id, -1, None);
            self.keep(&self.group.clone(), &Event::Heartbeat(leaves));
            for list in lists(&member) {
                let ordinary = beat(member.id, member.epoch, list);
                self.keep(&self.group.clone(), &Event::Heartbeat(ordinary));
            }
        }
    }

    fn keep(&mut self, group: &Reference, event: &Event) {
        if let Some((batch, after)) = served(group, event) {
            self.written.insert(batch, after);
        }
    }

    /// Every sixteen bytes may be an ID, and then the numbers beside them are the event's.
    fn after_unseen(&self, batch: &[u8]) -> Option<Reference> {
        (2..batch.len()).find_map(|at| {
            let id: Id = batch.get(at..at + 16)?.try_into().ok()?;
            let rest = &batch[at + 16..];
            let mut events = vec![Event::Topic {
                number: batch[at - 1].into(),
                id,
                count: number(rest).0,
            }];
            let (timeout, taken) = number(rest);
            let (subscription, _) = number(&rest[taken..]);
            events.extend(self.beats(id, timeout as i32, subscription));
            events.iter().find_map(|event| {
                let (written, after) = served(&self.group, event)?;
                (written == batch).then_some(after)
            })
        })
    }

    /// A sweep of the members that the batch calls gone, by 5, the place and 0.
    fn after_sweep(&self, batch: &[u8]) -> Option<Reference> {
        let named = batch
            .windows(3)
            .filter(|record| record[0] == 5 && record[2] == 0);
        let overdue = self.with_overdue(named.map(|record| record[1]));
        let (written, after) = served(&overdue, &Event::Sweep { tick: TICK })?;
        (written == batch).then_some(after)
    }

    /// A join, and ordinary heartbeats that give the timeout, the subscription or both.
    fn beats(&self, id: Id, timeout: i32, subscription: u32) -> Vec<Event> {
        let Ok(subscription) = u16::try_from(subscription) else {
            return Vec::new();
        };
        let mut beats = vec![Beat {
            timeout,
            subscription: Some(subscription),
            ..beat(id, 0, Some(Vec::new()))
        }];
        let mut members = self.members.iter();
        if let Some((_, member)) = members.find(|(_, member)| member.id == id) {
            for list in lists(member) {
                for (timeout, subscription) in [
                    (timeout, None),
                    (-1, Some(subscription)),
                    (timeout, Some(subscription)),
                ] {
                    beats.push(Beat {
                        timeout,
                        subscription,
                        ..beat(id, member.epoch, list.clone())
                    });
                }
            }
        }
        beats.into_iter().map(Event::Heartbeat).collect()
    }
}

/// What the event writes, and the group after it; None where it is refused or writes nothing.
fn served(group: &Reference, event: &Event) -> Option<(Vec<u8>, Reference)> {
    let mut records = [0; ROOMY];
    let mut after = group.clone();
    let reply = older::serve(&mut after, event, &mut records, &mut [0; SLOTS]);
    let stored = !reply.answer.is_refusal() && reply.written > 0;
    stored.then(|| {
        after.set_every_tick(TICK);
        (records[..reply.written].to_vec(), after)
    })
}

/// No list, and lists that have nothing, A, all that is held, and the first of P.
fn lists(member: &Member) -> Vec<Option<Vec<u16>>> {
    let first = member.revoking[..member.revoking.len().min(1)].to_vec();
    let mut lists = vec![None, Some(Vec::new())];
    lists.extend([member.assigned.clone(), member.held(), first].map(Some));
    lists.dedup();
    lists
}

fn beat(id: Id, epoch: i32, owned: Option<Vec<u16>>) -> Beat {
    Beat {
        id,
        epoch,
        tick: TICK,
        timeout: -1,
        subscription: None,
        owned,
    }
}

/// The number that the bytes begin with, in whatever form, and how many bytes it takes; 0 where there
/// is none.
fn number(bytes: &[u8]) -> (u32, usize) {
    let mut number = 0_u32;
    for (index, &byte) in bytes.iter().take(5).enumerate() {
        number |= u32::from(byte & 127) << (7 * index);
        if byte < 128 {
            return (number, index + 1);
        }
    }
    (number, 0)
}
