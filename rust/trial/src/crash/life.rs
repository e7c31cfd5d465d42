//! The life of one journal: a broker, its end, what is found in the file, and the next broker.

use std::fs::{self, File};
use std::io;
use std::mem;
use std::path::{Path, PathBuf};
use std::time::{Duration, Instant};

use super::process::Broker;
use super::wire::{self, Asked};
use super::{Place, Tally};
use crate::coordinator::Coordinator;
use crate::data::{Event, Reply, ROOMY};
use crate::generate::{World, PROFILES};
use crate::journal::written::framed;
use crate::journal::{Reads, Verdict};
use crate::ledger::Ledger;
use crate::random::Random;
use crate::reader;
use crate::sides::{Proved, Reference};
use crate::snapshot::Snapshot;

/// Kills in the life of a journal, at least and at most.
const KILLS: (usize, usize) = (4, 16);
/// Events that are answered one by one, and events that are under way at a kill, at most.
const ANSWERED: usize = 40;
const UNDER_WAY: usize = 12;
/// Longer than a broker takes to start.
const STARTING: Duration = Duration::from_millis(4);

/// An event that was sent, and what had to become of it.
struct Sent {
    event: Event,
    reply: Reply,
    told: Vec<u16>,
    records: Vec<u8>,
    /// The group after it, and where the file then ends.
    after: Reference,
    end: usize,
}

struct Life<'a> {
    place: &'a Place,
    journal: PathBuf,
    random: Random,
    world: World,
    /// What had to be written so far, and the group then.
    file: Vec<u8>,
    group: Reference,
    /// So much of the file is synced, and the group then.
    synced: usize,
    known: Reference,
    /// Events after that without an answer, and where the good part of the file was found to end.
    unanswered: Vec<Sent>,
    found: usize,
    ledger: Ledger,
    /// How long an answer took of late.
    pace: Duration,
    tally: &'a mut Tally,
}

/// Goes on until the journal has had its kills; what does not hold, in words.
pub fn lived(
    place: &Place,
    index: u64,
    mut random: Random,
    tally: &mut Tally,
) -> Result<(), String> {
    let profile = &PROFILES[index as usize % PROFILES.len()];
    let journal = place.folder.join(format!("{index}.journal"));
    let tick = random.next() as u32;
    let mut life = Life {
        world: World::new(profile, Random::new(random.next())),
        file: Reference::HEADING.to_vec(),
        group: Reference::fresh(tick),
        synced: 0,
        known: Reference::fresh(tick),
        unanswered: Vec::new(),
        found: 0,
        ledger: Ledger::new(),
        pace: Duration::from_millis(1),
        place,
        journal,
        random,
        tally,
    };
    life.tally.journals += 1;
    let (fewest, most) = KILLS;
    for _ in 0..life.random.between(fewest, most) {
        life.one_broker()?;
    }
    life.last_broker()?;
    fs::remove_file(&life.journal).map_err(|error| about(&life.journal, error))
}

fn about(path: &Path, error: io::Error) -> String {
    format!("{}: {error}", path.display())
}

impl Life<'_> {
    /// A broker from its start to its kill.
    fn one_broker(&mut self) -> Result<(), String> {
        self.tally.kills += 1;
        let tick = self.tick_of_reading();
        let mut broker = Broker::start(self.place, &self.journal, tick)?;
        if self.random.chance(1, 6) {
            return self.kill_at_opening(broker, tick);
        }
        let line = broker.line()?;
        self.check_opened(&line, tick)?;
        for _ in 0..self.random.below(ANSWERED) {
            self.one_answered(&mut broker)?;
        }
        let mut under_way = Vec::new();
        for _ in 0..self.random.between(1, UNDER_WAY) {
            let asked = self.next();
            broker.ask(&asked)?;
            under_way.push(self.served(asked));
        }
        let longest = self.pace.as_micros() as usize * (under_way.len() + 1);
        let after = Duration::from_micros(self.random.below(longest) as u64);
        let lines = broker.kill(after)?;
        self.check_killed(under_way, &lines)
    }

    /// The journal's last broker has nobody to serve, and ends by itself.
    fn last_broker(&mut self) -> Result<(), String> {
        let tick = self.tick_of_reading();
        let mut broker = Broker::start(self.place, &self.journal, tick)?;
        let line = broker.line()?;
        self.check_opened(&line, tick)?;
        self.tally.bytes += self.file.len() as u64;
        broker.end()
    }

    fn kill_at_opening(&mut self, broker: Broker, tick: u32) -> Result<(), String> {
        let longest = STARTING.as_micros() as usize;
        let after = Duration::from_micros(self.random.below(longest) as u64);
        let lines = broker.kill(after)?;
        match lines.first() {
            Some(line) => self.check_opened(line, tick)?,
            None => self.tally.at_opening += 1,
        }
        self.check_killed(Vec::new(), &[])
    }

    fn tick_of_reading(&mut self) -> u32 {
        let later = self
            .group
            .last_tick()
            .wrapping_add(self.random.below(10_000) as u32);
        let any = self.random.next() as u32;
        self.random.pick(&[later, later, later, any])
    }

    /// The broker has the group of the file, at the tick of reading, and has cut the tail off. What it
    /// found is stored from now on.
    fn check_opened(&mut self, line: &str, tick: u32) -> Result<(), String> {
        self.file.truncate(self.found.max(Reference::HEADING.len()));
        let file = self.read_file()?;
        if file != self.file {
            let (found, due) = (file.len(), self.file.len());
            return Err(format!(
                "opened, the file has {found} bytes, not {due}, or others"
            ));
        }
        self.count()?;
        self.known.set_every_tick(tick);
        self.group = self.known.clone();
        self.synced = file.len();
        let due = wire::opened(file.len() as u64, &self.group);
        match line == due {
            true => Ok(()),
            false => Err(format!("the broker opened with {line:?}, not {due:?}")),
        }
    }

    fn one_answered(&mut self, broker: &mut Broker) -> Result<(), String> {
        let turn = self.world.next(&self.group);
        let asked = asked(&turn);
        let begun = Instant::now();
        broker.ask(&asked)?;
        let sent = self.served(asked);
        let line = broker.line()?;
        self.pace = (7 * self.pace + begun.elapsed()) / 8;
        self.world.learn(&turn, sent.reply, &sent.told);
        self.went_out(&sent, &line)
    }

    /// An event whose answer nobody will hear of.
    fn next(&mut self) -> Asked {
        asked(&self.world.next(&self.group))
    }

    /// What the plain coordinator makes of the event.
    fn served(&mut self, asked: Asked) -> Sent {
        self.tally.events += 1;
        let Asked { event, list } = asked;
        let (mut records, mut list) = ([0; ROOMY], vec![0; list]);
        let reply = self.group.serve(&event, &mut records, &mut list);
        let records = records[..reply.written].to_vec();
        if !records.is_empty() {
            self.file.extend(framed(&records));
        }
        Sent {
            event,
            reply,
            told: list[..reply.answer.told()].to_vec(),
            records,
            after: self.group.clone(),
            end: self.file.len(),
        }
    }

    /// An answer that went out: it is the right one, and all that was written before is synced.
    fn went_out(&mut self, sent: &Sent, line: &str) -> Result<(), String> {
        let due = wire::answer(sent.reply.answer, &sent.told);
        if line != due {
            let event = &sent.event;
            return Err(format!("{event}: answered {line:?}, not {due:?}"));
        }
        self.synced = sent.end;
        self.known = sent.after.clone();
        self.tally.answers += 1;
        self.tally.stored += u64::from(!sent.records.is_empty());
        self.feed(sent, &sent.told)
    }

    fn feed(&mut self, sent: &Sent, told: &[u16]) -> Result<(), String> {
        let records = reader::read(&sent.records);
        let records = records.map_err(|at| format!("no record at byte {at}"))?;
        self.ledger
            .feed(&sent.event, sent.reply.answer, told, &records)
            .and_then(|()| self.ledger.single_holder())
    }

    /// After the kill: what went out, and what is in the file.
    fn check_killed(&mut self, mut under_way: Vec<Sent>, lines: &[String]) -> Result<(), String> {
        if lines.len() > under_way.len() {
            return Err("the broker answered more than it was asked".into());
        }
        for (sent, line) in under_way.drain(..lines.len()).zip(lines) {
            self.went_out(&sent, line)?;
        }
        self.unanswered.extend(under_way);
        let file = self.after_power_loss()?;
        if !self.file.starts_with(&file) {
            let same = file
                .iter()
                .zip(&self.file)
                .take_while(|(found, due)| found == due);
            let same = same.count();
            let (found, due) = (file.len(), self.file.len());
            return Err(format!("the file's {found} bytes are those of {due} that had to be written up to byte {same} only"));
        }
        if file.len() < self.synced {
            let (found, synced) = (file.len(), self.synced);
            return Err(format!(
                "of {synced} bytes that were answered for {found} are left"
            ));
        }
        self.found = self.check_read(&file)?;
        Ok(())
    }

    /// The file as the next broker finds it: what no sync had covered may be gone.
    fn after_power_loss(&mut self) -> Result<Vec<u8>, String> {
        let mut found = self.read_file()?;
        let unsynced = found.len().saturating_sub(self.synced);
        if unsynced > 0 && self.random.chance(1, 2) {
            let length = self.synced + self.random.below(unsynced);
            File::options()
                .write(true)
                .open(&self.journal)
                .and_then(|file| file.set_len(length as u64))
                .map_err(|error| about(&self.journal, error))?;
            found.truncate(length);
            self.tally.cut += 1;
        }
        Ok(found)
    }

    /// Where the good part ends: both readers say the same, and have the group of that moment.
    fn check_read(&mut self, file: &[u8]) -> Result<usize, String> {
        let tick = self.random.next() as u32;
        let proved = Proved::read(file, tick);
        let reading = Reference::read(file, tick);
        if (proved.end, proved.verdict) != (reading.end, reading.verdict) {
            return Err(format!("read to {} and {}", proved.end, reading.end));
        }
        match reading.verdict {
            Verdict::Whole => {}
            Verdict::Torn { .. } => self.tally.torn += u64::from(!file.is_empty()),
            Verdict::Refused { offset } => return Err(format!("refused at {offset}")),
        }
        let stored = &self.unanswered[..self.stored(reading.end)];
        let mut due = stored
            .last()
            .map_or(&self.known, |sent| &sent.after)
            .clone();
        due.set_every_tick(tick);
        let [ours, theirs, due] = [
            Snapshot::of(&proved.group),
            Snapshot::of(&reading.group),
            Snapshot::of(&due),
        ];
        match ours.difference(&theirs).or(ours.difference(&due)) {
            Some(what) => Err(format!("read from the file: {what}")),
            None => Ok(reading.end),
        }
    }

    /// How many of the events without an answer have their batch, and all before it, within so many
    /// bytes, or wrote none after only such ones.
    fn stored(&self, end: usize) -> usize {
        let events = self.unanswered.iter();
        events.take_while(|sent| sent.end <= end).count()
    }

    /// "it counts each event whose batch and all before it in the file are stored (or that wrote none
    /// after only such ones), and what was told only where the answer went out". An event that wrote
    /// none may not have been served at all.
    fn count(&mut self) -> Result<(), String> {
        let stored = self.stored(self.found);
        for (index, sent) in mem::take(&mut self.unanswered).into_iter().enumerate() {
            let has_batch = !sent.records.is_empty();
            if index >= stored {
                self.tally.gone += u64::from(has_batch);
                continue;
            }
            self.tally.found += u64::from(has_batch);
            if has_batch || self.random.chance(1, 2) {
                self.feed(&sent, &[])?;
            }
            self.known = sent.after;
        }
        Ok(())
    }

    fn read_file(&self) -> Result<Vec<u8>, String> {
        match fs::read(&self.journal) {
            // Killed before it made the file.
            Err(error) if error.kind() == io::ErrorKind::NotFound => Ok(Vec::new()),
            read => read.map_err(|error| about(&self.journal, error)),
        }
    }
}

fn asked(turn: &crate::data::Turn) -> Asked {
    Asked {
        event: turn.event.clone(),
        list: turn.list,
    }
}
