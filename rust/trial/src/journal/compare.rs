//! Two readers on the same files: the same verdict, the same end, the same group. And what a reading
//! must be whatever the other reader says: all that was written before the damage is in it, the tail
//! is the caller's own bytes, and every tick is the tick of reading.

use std::fmt;

use super::damage::{every, some, Damage, Damaged};
use super::refused::cause;
use super::tally::{Found, Tally};
use super::{Journal, Reading, Reads, Verdict};
use crate::coordinator::Coordinator;
use crate::generate::PROFILES;
use crate::panics::caught;
use crate::random::Random;
use crate::snapshot::Snapshot;

#[derive(Clone, Copy, Debug)]
pub struct Plan {
    pub seed: u64,
    /// Journals are made until there were so many files.
    pub files: u64,
    /// Only this journal, where given.
    pub journal: Option<u64>,
}

/// One of so many journals is short and damaged in every way; of the others some files are made.
const EVERY: u64 = 8;
const SHORT: (usize, usize) = (3, 9);
const LONG: (usize, usize) = (20, 150);
const FILES_OF_LONG: usize = 250;

/// Compares two readers; `progress` is shown the tally after each journal. The first difference ends
/// it with a report.
pub fn explore<S: Reads, R: Reads>(
    plan: Plan,
    mut progress: impl FnMut(&Tally),
) -> Result<Tally, Box<Report>> {
    let mut tally = Tally::default();
    if let Some(index) = plan.journal {
        one_journal::<S, R>(plan.seed, index, &mut tally)?;
        return Ok(tally);
    }
    let mut index = 0;
    while tally.files < plan.files {
        one_journal::<S, R>(plan.seed, index, &mut tally)?;
        progress(&tally);
        index += 1;
    }
    Ok(tally)
}

/// The `index`th journal of a seed, on its own.
fn one_journal<S: Reads, R: Reads>(
    seed: u64,
    index: u64,
    tally: &mut Tally,
) -> Result<(), Box<Report>> {
    let mut random = Random::part(seed, index);
    let profile = &PROFILES[random.below(PROFILES.len())];
    let is_short = index.is_multiple_of(EVERY);
    let (fewest, most) = if is_short { SHORT } else { LONG };
    let mut made = |batches| Journal::made(profile, Random::new(random.next()), batches);
    let (journal, other) = (
        made(fewest + index as usize % (most - fewest)),
        made(fewest),
    );
    tally.journals += 1;
    let tick = random.next() as u32;
    let mut check = |file: Damaged| {
        let found = compare::<S, R>(&journal, &file, tick).map_err(|what| {
            let name = profile.name;
            Box::new(Report::new(seed, index, name, &file, tick, what))
        })?;
        tally.count(file.damage, found.0);
        tally.batches += found.1;
        tally.leaving_slots += journal.leaving_slots(journal.whole_at(file.sound));
        Ok(())
    };
    if journal.batches.is_empty() || other.batches.is_empty() {
        return check(journal.as_written());
    }
    if is_short {
        return every(&journal, &other, &mut random, check);
    }
    for _ in 0..FILES_OF_LONG {
        check(some(&journal, &other, &mut random))?;
    }
    Ok(())
}

/// What the file was found to be, and how many batches were read; or the difference, in words.
pub fn compare<S: Reads, R: Reads>(
    journal: &Journal,
    file: &Damaged,
    tick: u32,
) -> Result<(Found, u64), String> {
    let bytes = &file.bytes[..];
    let subject = caught(|| S::read(bytes, tick)).map_err(|fault| fault.to_string())?;
    let reference = R::read(bytes, tick);
    let (ours, theirs) = (subject.verdict, reference.verdict);
    if ours != theirs {
        return Err(format!(
            "subject: {}; reference: {}",
            words(ours),
            words(theirs)
        ));
    }
    if subject.end != reference.end {
        let (ours, theirs) = (subject.end, reference.end);
        return Err(format!("the good part ends at {ours} and {theirs}"));
    }
    let group = Snapshot::of(&subject.group);
    if let Some(what) = group.difference(&Snapshot::of(&reference.group)) {
        return Err(what);
    }
    if subject.group.range_target() != reference.group.range_target() {
        return Err("the group that was read has two range targets".into());
    }
    check_ends(bytes, &subject)?;
    check_ticks(&group, tick)?;
    check_against_written(journal, file, &subject, &group)?;
    let found = match ours {
        Verdict::Whole => Found::Whole,
        Verdict::Torn { .. } => Found::Torn,
        Verdict::Refused { offset } => Found::Refused(cause(bytes, offset)),
    };
    Ok((found, batches_in(&bytes[..subject.end])))
}

/// "the torn tail is handed back as a part of the caller's bytes", from the end of the good part.
fn check_ends<G>(bytes: &[u8], reading: &Reading<G>) -> Result<(), String> {
    let end = reading.end;
    let is_right = match reading.verdict {
        Verdict::Whole => end == bytes.len(),
        Verdict::Torn { tail } => end <= bytes.len() && std::ptr::eq(tail, &bytes[end..]),
        Verdict::Refused { offset } => offset == end && offset < bytes.len(),
    };
    match is_right {
        true => Ok(()),
        false => Err(format!("{} with the end {end}", words(reading.verdict))),
    }
}

fn check_ticks(group: &Snapshot, tick: u32) -> Result<(), String> {
    let is_other = |at: u32| at != tick;
    let mut members = group.members.iter();
    if is_other(group.last_tick)
        || members.any(|(_, member)| is_other(member.heard) || is_other(member.revoked_at))
    {
        return Err("a tick is not the tick of reading".into());
    }
    Ok(())
}

/// Batches that were written before the damage are read; where it is a cut, these and no more.
fn check_against_written<G: Coordinator>(
    journal: &Journal,
    file: &Damaged,
    reading: &Reading<G>,
    group: &Snapshot,
) -> Result<(), String> {
    let whole = journal.whole_at(file.sound);
    if file.sound >= journal.end_of(0) && reading.end < journal.end_of(whole) {
        return Err("a batch that was written before the damage is not read".into());
    }
    if !matches!(file.damage, Damage::Cut | Damage::None) {
        return Ok(());
    }
    let end = match file.sound < journal.end_of(0) {
        true => 0,
        false => journal.end_of(whole),
    };
    let is_whole = matches!(reading.verdict, Verdict::Whole);
    let is_torn = matches!(reading.verdict, Verdict::Torn { .. });
    if reading.end != end || is_whole != (end == file.sound && end > 0) || is_torn == is_whole {
        let (verdict, at) = (words(reading.verdict), file.sound);
        return Err(format!(
            "{verdict}, cut at {at}, after {whole} whole batches"
        ));
    }
    let mut written = Snapshot::of(journal.group_after(whole));
    set_ticks(&mut written, group.last_tick);
    match group.difference(&written) {
        Some(what) => Err(format!("not the group that was written: {what}")),
        None => Ok(()),
    }
}

/// "every last-heard tick, the tick P was set and the last tick become the tick of reading".
pub fn set_ticks(group: &mut Snapshot, tick: u32) {
    group.last_tick = tick;
    for (_, member) in &mut group.members {
        member.heard = tick;
        member.revoked_at = tick;
    }
}

/// How many batches a good file has.
fn batches_in(file: &[u8]) -> u64 {
    let mut rest = file.get(4..).unwrap_or_default();
    let mut batches = 0;
    while let Some(&first) = rest.first() {
        let (start, length) = match first < 128 {
            true => (1, usize::from(first)),
            false => (2, usize::from(first - 128) + 128 * usize::from(rest[1])),
        };
        rest = &rest[start + length..];
        batches += 1;
    }
    batches
}

fn words(verdict: Verdict) -> String {
    match verdict {
        Verdict::Whole => "whole".into(),
        Verdict::Torn { tail } => format!("torn, {} bytes of tail", tail.len()),
        Verdict::Refused { offset } => format!("refused at {offset}"),
    }
}

/// Where two readers differed, and the file.
#[derive(Clone, Debug)]
pub struct Report {
    pub seed: u64,
    pub journal: u64,
    pub profile: &'static str,
    pub damage: Damage,
    pub tick: u32,
    pub what: String,
    pub file: Vec<u8>,
}

impl Report {
    fn new(
        seed: u64,
        journal: u64,
        profile: &'static str,
        file: &Damaged,
        tick: u32,
        what: String,
    ) -> Report {
        Report {
            seed,
            journal,
            profile,
            damage: file.damage,
            tick,
            what,
            file: file.bytes.clone(),
        }
    }
}

impl fmt::Display for Report {
    fn fmt(&self, f: &mut fmt::Formatter) -> fmt::Result {
        let (seed, journal) = (self.seed, self.journal);
        writeln!(
            f,
            "FAILED with seed {seed}, journal {journal} ({}), {}, read at tick {}",
            self.profile,
            self.damage.label(),
            self.tick
        )?;
        writeln!(f, "  {}", self.what)?;
        let hex: Vec<String> = self.file.iter().map(|byte| format!("{byte:02X}")).collect();
        writeln!(f, "the file, {} bytes: {}", self.file.len(), hex.join(" "))
    }
}
