//! An event with what is lent to it, and what comes of it.

use std::io;

use crate::coordinator::journal::Store;
use crate::coordinator::{Answer, Group, Heartbeat, Id, Reply};
use crate::group::SLOTS;

/// `InstallRange` is an install of the range assignor's target, for the group's epoch.
#[derive(Clone, PartialEq, Eq, Debug)]
pub enum Event {
    Heartbeat(Beat),
    Sweep { tick: Tick },
    Topic { number: u32, id: Id, count: u32 },
    Install { epoch: i32, entries: Vec<u8> },
    InstallRange,
}

#[derive(Clone, PartialEq, Eq, Debug)]
pub struct Beat {
    pub id: Id,
    pub epoch: i32,
    pub tick: Tick,
    /// -1: not given.
    pub timeout: i32,
    pub subscription: Option<u16>,
    pub owned: Option<Vec<u16>>,
}

#[derive(Clone, Copy, PartialEq, Eq, Debug)]
pub enum Tick {
    /// The group's last tick.
    Last,
    At(u32),
    /// So many ms after the group's last tick.
    After(u32),
}

/// The bytes lent for the records and the entries lent for the slots of the answer.
#[derive(Clone, Copy, PartialEq, Eq, Debug)]
pub struct Lent {
    pub bytes: usize,
    pub entries: usize,
}

impl Lent {
    /// Room for every event.
    pub const ENOUGH: Lent = Lent {
        bytes: 4096,
        entries: SLOTS as usize,
    };
}

pub struct Outcome {
    pub answer: Answer,
    pub slots: Vec<u16>,
    pub bytes: Vec<u8>,
}

impl Tick {
    pub fn seen_from(self, last: u32) -> u32 {
        match self {
            Tick::Last => last,
            Tick::At(tick) => tick,
            Tick::After(elapsed) => last.wrapping_add(elapsed),
        }
    }
}

impl Event {
    pub fn run(&self, group: &mut Group, lent: Lent) -> Outcome {
        let mut bytes = vec![0; lent.bytes];
        let mut slots = vec![0; lent.entries];
        let reply = self.reply(group, &mut bytes, &mut slots);
        bytes.truncate(reply.written);
        slots.truncate(match reply.answer {
            Answer::Assignment { count, .. } => count,
            _ => 0,
        });
        Outcome {
            answer: reply.answer,
            slots,
            bytes,
        }
    }

    fn reply(&self, group: &mut Group, records: &mut [u8], assignment: &mut [u16]) -> Reply {
        let last = group.last_tick();
        match self {
            Event::Heartbeat(beat) => group.heartbeat(&beat.request(last), records, assignment),
            Event::Sweep { tick } => group.sweep(tick.seen_from(last), records),
            Event::Topic { number, id, count } => group.topic(*number, *id, *count, records),
            Event::Install { epoch, entries } => group.install(*epoch, entries, records),
            Event::InstallRange => {
                let (epoch, entries) = range_install(group);
                group.install(epoch, &entries, records)
            }
        }
    }

    /// What comes of it once a store has its batch. The store lends room for everything and keeps the
    /// records to itself, so a copy of the group tells what the event writes, and whether it fits.
    pub fn run_stored(&self, store: &mut Store, lent: Lent) -> io::Result<Outcome> {
        let mut outcome = self.run(&mut store.group().clone(), lent);
        if !matches!(outcome.answer, Answer::Refused(_)) {
            outcome.answer = self.answer_of(store, &mut outcome.slots)?;
        }
        Ok(outcome)
    }

    fn answer_of(&self, store: &mut Store, assignment: &mut [u16]) -> io::Result<Answer> {
        let last = store.group().last_tick();
        match self {
            Event::Heartbeat(beat) => store.heartbeat(&beat.request(last), assignment),
            Event::Sweep { tick } => store.sweep(tick.seen_from(last)),
            Event::Topic { number, id, count } => store.topic(*number, *id, *count),
            Event::Install { epoch, entries } => store.install(*epoch, entries),
            Event::InstallRange => {
                let (epoch, entries) = range_install(store.group());
                store.install(epoch, &entries)
            }
        }
    }
}

/// The epoch and the entries of the install that it comes to.
pub fn range_install(group: &Group) -> (i32, [u8; SLOTS as usize]) {
    (group.epoch(), group.range_target())
}

impl Beat {
    fn request(&self, last: u32) -> Heartbeat<'_> {
        Heartbeat {
            id: self.id,
            epoch: self.epoch,
            tick: self.tick.seen_from(last),
            timeout: self.timeout,
            subscription: self.subscription,
            owned: self.owned.as_deref(),
        }
    }
}

#[cfg(test)]
mod tests {
    use super::*;

    #[test]
    fn ticks_run_over() {
        assert_eq!(Tick::Last.seen_from(7), 7);
        assert_eq!(Tick::At(3).seen_from(7), 3);
        assert_eq!(Tick::After(3).seen_from(7), 10);
        assert_eq!(Tick::After(1).seen_from(u32::MAX), 0);
    }

    #[test]
    fn only_what_was_written_comes_back() {
        let topic = Event::Topic {
            number: 0,
            id: [0x11; 16],
            count: 3,
        };
        let mut group = Group::new(0);
        let outcome = topic.run(&mut group, Lent::ENOUGH);
        assert_eq!(outcome.answer, Answer::Done);
        assert_eq!(outcome.bytes.len(), 19);
        assert!(outcome.slots.is_empty());
        let again = topic.run(&mut group, Lent::ENOUGH);
        assert!(again.bytes.is_empty());
    }
}
