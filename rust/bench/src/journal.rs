//! A journal of typical events, and the events that wrote it.

use plain::journal::{frame, HEADING};

use crate::coordinator::{Coordinator, Lent, Outcome};
use crate::event::Event;
use crate::scene::{even_target, install, join, moved_target, ordinary, standing};
use crate::scene::{NOBODY, START, TOPICS};

/// Partitions of each topic at first; they grow one by one.
const PARTITIONS: u32 = 32;
const CYCLES: u32 = 15;
/// A member that is silent for a whole cycle is overdue.
const CYCLE: u32 = 46_000;

pub struct Journal {
    pub members: u8,
    pub file: Vec<u8>,
    /// One for each batch.
    pub events: Vec<Event>,
}

impl Journal {
    /// Two members at least make topics and join, take their shares, and then, cycle by cycle: a topic
    /// grows, half of the slots move, one member is swept, joins again and gets its share.
    pub fn new(members: u8) -> Journal {
        let mut writer = Writer::new(members);
        for number in 0..TOPICS {
            writer.topic(number, PARTITIONS);
        }
        for place in 0..members {
            writer.play(join(place, START));
        }
        writer.install(even_target(members));
        writer.beat(members);
        for cycle in 0..CYCLES {
            writer.cycle(cycle);
        }
        writer.journal
    }

    /// Serves the events on a group made for them.
    pub fn serve<C: Coordinator>(&self, group: &mut C, lent: &mut Lent) {
        for event in &self.events {
            group.play(event, lent);
        }
    }
}

struct Writer {
    journal: Journal,
    group: plain::Group,
    tick: u32,
    counts: [u32; TOPICS as usize],
}

impl Writer {
    fn new(members: u8) -> Writer {
        Writer {
            journal: Journal {
                members,
                file: HEADING.to_vec(),
                events: Vec::new(),
            },
            group: plain::Group::new(START),
            tick: START,
            counts: [0; TOPICS as usize],
        }
    }

    fn cycle(&mut self, cycle: u32) {
        let members = self.journal.members;
        let target = match cycle % 2 {
            0 => moved_target(members),
            _ => even_target(members),
        };
        let silent = members - 1;
        self.tick += CYCLE;
        self.topic((cycle % u32::from(TOPICS)) as u8, PARTITIONS + 1);
        self.install(target.clone());
        // They move slots to P, give them back and take others, and take what was given back last.
        for _ in 0..3 {
            self.beat(silent);
        }
        self.play(Event::Sweep { tick: self.tick });
        self.play(join(silent, self.tick));
        self.install(target);
        for _ in 0..2 {
            self.beat(members);
        }
    }

    fn topic(&mut self, number: u8, count: u32) {
        self.counts[usize::from(number)] = count;
        self.play(Event::Topic { number, count });
    }

    /// Of the target, the slots that exist.
    fn install(&mut self, mut target: Vec<u8>) {
        for (slot, entry) in target.iter_mut().enumerate() {
            if slot as u32 % 64 >= self.counts[slot / 64] {
                *entry = NOBODY;
            }
        }
        let event = install(&self.group, target);
        self.play(event);
    }

    /// A heartbeat of each of the first members.
    fn beat(&mut self, members: u8) {
        for place in 0..members {
            let event = ordinary(place, standing(&self.group, place), self.tick);
            self.play(event);
        }
    }

    /// An event that stores nothing leaves no trace.
    fn play(&mut self, event: Event) {
        let mut lent = Lent::new();
        let reply = self.group.play(&event, &mut lent);
        if let Outcome::Refused(number) = plain::Group::outcome(reply) {
            panic!("an event for a journal was refused with {number}");
        }
        let records = &lent.records[..reply.written];
        let mut out = [0; 4_096 + 2];
        if let Some(framed) = frame(records, &mut out) {
            self.journal.file.extend(&out[..framed]);
            self.journal.events.push(event);
        }
    }
}

#[cfg(test)]
mod tests {
    use super::*;
    use plain::journal::{read, Verdict};

    /// The events alone write the file again, on every side.
    fn is_written_by<C: Coordinator>(journal: &Journal) {
        let mut group = C::made(START);
        let mut file = HEADING.to_vec();
        for event in &journal.events {
            let mut lent = Lent::new();
            let reply = group.play(event, &mut lent);
            let mut out = [0; 4_096 + 2];
            let framed = frame(&lent.records[..C::written(reply)], &mut out);
            file.extend(&out[..framed.expect("records")]);
        }
        assert!(file == journal.file);
    }

    #[test]
    fn the_events_write_the_file() {
        for members in [2, 8, 32] {
            let journal = Journal::new(members);
            is_written_by::<plain::Group>(&journal);
            is_written_by::<pankvisolo::Group>(&journal);
            is_written_by::<tuned::Group>(&journal);
            let reading = read(&journal.file, START);
            assert_eq!(reading.verdict, Verdict::Whole);
        }
        assert!(Journal::new(32).events.len() > 1_000);
    }
}
