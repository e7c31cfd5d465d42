//! Reading a journal back, beside the events that wrote it.

use std::fmt;
use std::hint::black_box;
use std::marker::PhantomData;
use std::time::Instant;

use crate::clock::{each, medians, round, Batches, Timed};
use crate::coordinator::{Coordinator, Lent};
use crate::journal::Journal;
use crate::scene::START;

pub const NAME: &str = "reading a journal";

pub const INTRODUCTION: &str = "\
A journal is read from memory, whole, by the proved reader and by the plain one, and the events that
wrote it are served by either coordinator: topics that are made and grow, joins, installs that move
half of the slots, heartbeats that move, give back and take slots, sweeps of one. Times are of one
batch and of one event.";

pub struct Row {
    members: u8,
    batches: usize,
    bytes: usize,
    times: Times,
    /// Of single rounds, reading to serving.
    lowest: f64,
    highest: f64,
}

/// Nanoseconds of a batch read, or of its event served.
#[derive(Clone, Copy)]
struct Times {
    read: f64,
    read_by_plain: f64,
    served: f64,
    served_by_plain: f64,
}

impl Times {
    fn of([read, read_by_plain, served, served_by_plain]: [f64; 4]) -> Times {
        Times {
            read,
            read_by_plain,
            served,
            served_by_plain,
        }
    }

    fn to_serving(self) -> f64 {
        self.read / self.served
    }

    fn to_plain(self) -> f64 {
        self.read / self.read_by_plain
    }
}

impl Row {
    pub fn measured(members: u8, rounds: usize) -> Row {
        let journal = Journal::new(members);
        let read = Read {
            journal: &journal,
            reader: |file| pankvisolo::journal::read(file, START).end,
        };
        let read_by_plain = Read {
            journal: &journal,
            reader: |file| plain::journal::read(file, START).end,
        };
        let served = Served::<pankvisolo::Group>::new(&journal);
        let served_by_plain = Served::<plain::Group>::new(&journal);
        for side in [&read, &read_by_plain] {
            let end = (side.reader)(&journal.file);
            assert!(end == journal.file.len(), "the journal is not read whole");
        }
        let sides: [&dyn Timed; 4] = [&read, &read_by_plain, &served, &served_by_plain];
        let mut lent = Lent::new();
        let rounds = (0..rounds).map(|_| round(sides, &mut lent));
        Row::of(&journal, &rounds.collect::<Vec<_>>())
    }

    fn of(journal: &Journal, rounds: &[[f64; 4]]) -> Row {
        let ratios = || rounds.iter().map(|times| Times::of(*times).to_serving());
        Row {
            members: journal.members,
            batches: journal.events.len(),
            bytes: journal.file.len(),
            times: Times::of(medians(rounds)),
            lowest: ratios().fold(f64::INFINITY, f64::min),
            highest: ratios().fold(0.0, f64::max),
        }
    }
}

pub const HEADING: &str = "\
| members | batches | bytes | proved reads, ns | batches a second | plain reads, ns | proved serves, ns | plain serves, ns | to plain's reading | to serving | lowest | highest |
|--:|--:|--:|--:|--:|--:|--:|--:|--:|--:|--:|--:|";

impl fmt::Display for Row {
    fn fmt(&self, f: &mut fmt::Formatter) -> fmt::Result {
        let (members, batches, bytes, times) = (self.members, self.batches, self.bytes, self.times);
        let per_second = 1e9 / times.read;
        write!(f, "| {members} | {batches} | {bytes} ")?;
        write!(f, "| {:.0} | {per_second:.0} ", times.read)?;
        for nanoseconds in [times.read_by_plain, times.served, times.served_by_plain] {
            write!(f, "| {nanoseconds:.0} ")?;
        }
        let ratios = [
            times.to_plain(),
            times.to_serving(),
            self.lowest,
            self.highest,
        ];
        for ratio in ratios {
            write!(f, "| {ratio:.2} ")?;
        }
        write!(f, "|")
    }
}

/// The whole file read once is a batch of calls, one for each batch in it.
struct Read<'a> {
    journal: &'a Journal,
    /// Returns where the good part ends.
    reader: fn(&[u8]) -> usize,
}

impl Timed for Read<'_> {
    fn side(&self) -> Box<dyn Batches + '_> {
        Box::new(self)
    }
}

impl Batches for &Read<'_> {
    fn batch(&mut self, _: &mut Lent) -> f64 {
        let started = Instant::now();
        black_box((self.reader)(black_box(&self.journal.file)));
        each(started.elapsed(), self.journal.events.len())
    }
}

/// All events, from a fresh group on.
struct Served<'a, C> {
    journal: &'a Journal,
    group: PhantomData<C>,
}

impl<C> Served<'_, C> {
    fn new(journal: &Journal) -> Served<'_, C> {
        let group = PhantomData;
        Served { journal, group }
    }
}

impl<C: Coordinator> Timed for Served<'_, C> {
    fn side(&self) -> Box<dyn Batches + '_> {
        Box::new(self)
    }
}

impl<C: Coordinator> Batches for &Served<'_, C> {
    fn batch(&mut self, lent: &mut Lent) -> f64 {
        let mut group = C::made(START);
        let started = Instant::now();
        self.journal.serve(black_box(&mut group), lent);
        let elapsed = started.elapsed();
        black_box(group);
        each(elapsed, self.journal.events.len())
    }
}

#[cfg(test)]
mod tests {
    use super::*;

    #[test]
    fn a_row_has_medians_and_their_ratios() {
        let journal = Journal::new(2);
        let (batches, bytes) = (journal.events.len(), journal.file.len());
        let rounds = [[200.0, 400.0, 100.0, 300.0], [100.0, 400.0, 100.0, 300.0]];
        let row = Row::of(&journal, &rounds).to_string();
        let times = "| 200 | 5000000 | 400 | 100 | 300 | 0.50 | 2.00 | 1.00 | 2.00 |";
        assert_eq!(row, format!("| 2 | {batches} | {bytes} {times}"));
    }

    #[test]
    fn a_journal_is_read_whole_and_served() {
        Row::measured(2, 1);
    }
}
