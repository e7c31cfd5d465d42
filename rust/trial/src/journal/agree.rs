//! The two judges of batches on small groups: every batch that some event writes, and more that are
//! near to one, are judged by closed form and by trying every event.

use std::fmt;

use super::forge::Forge;
use super::judge::Judge;
use super::older::some_world;
use super::records::write;
use super::refused::{cause_of_batch, Cause};
use super::spoil::spoiled;
use crate::coordinator::Coordinator;
use crate::data::PLACES;
use crate::generate::{Profile, SMALL_PROFILES};
use crate::lent::Lent;
use crate::random::Random;
use crate::sides::Reference;
use crate::snapshot::Snapshot;

#[derive(Clone, Copy, Debug)]
pub struct Plan {
    pub seed: u64,
    /// Runs begin until so many batches were judged.
    pub batches: u64,
}

/// One of so many groups is looked at.
const GROUPS: usize = 4;
/// Of each sort of batch, no more than this on one group.
const OF_A_SORT: usize = 60;

#[derive(Clone, Default)]
pub struct Tally {
    pub groups: u64,
    /// Of the groups, those with 32 members, and those at G's largest value.
    pub full: u64,
    pub at_end: u64,
    pub judged: u64,
    /// Good ones of installs that leave slots over.
    pub leaving_slots: u64,
    /// By the kind of event that writes such records.
    good: [u64; Cause::ALL.len()],
    refused: [u64; Cause::ALL.len()],
}

/// The judge by closed form, `plain::journal::read_batch`.
pub type ReadBatch = fn(&mut Reference, u32, &[u8]) -> bool;

/// Ends with the first batch about which the judges differ, or after which their groups do.
pub fn explore(
    plan: Plan,
    read_batch: ReadBatch,
    mut progress: impl FnMut(&Tally),
) -> Result<Tally, String> {
    let mut tally = Tally::default();
    let mut index = 0;
    while tally.judged < plan.batches {
        let profile = &SMALL_PROFILES[index as usize % SMALL_PROFILES.len()];
        one_run(
            profile,
            Random::part(plan.seed, index),
            read_batch,
            &mut tally,
        )
        .map_err(|what| format!("seed {}, run {index}: {what}", plan.seed))?;
        progress(&tally);
        index += 1;
    }
    Ok(tally)
}

fn one_run(
    profile: &'static Profile,
    mut random: Random,
    read_batch: ReadBatch,
    tally: &mut Tally,
) -> Result<(), String> {
    let (mut world, serve) = some_world(profile, Random::new(random.next()));
    let mut group = Reference::start(world.start());
    let mut lent = Lent::default();
    let mut recent: Vec<Vec<u8>> = Vec::new();
    for _ in 0..world.length() {
        if random.chance(1, GROUPS) {
            if let Some(judge) = Judge::of(&group, read_batch) {
                tally.groups += 1;
                tally.full += u64::from((0..PLACES).all(|at| group.member_at(at).is_some()));
                tally.at_end += u64::from(group.epoch() == i32::MAX);
                judge_some(&judge, &group, &recent, &mut random, tally)?;
            }
        }
        let turn = world.next(&group);
        lent.fill(&turn);
        let reply = serve(&mut group, &turn.event, &mut lent.records, &mut lent.list);
        world.learn(&turn, reply, &lent.list[..reply.answer.told()]);
        if reply.written > 0 {
            recent.push(lent.records[..reply.written].to_vec());
        }
    }
    Ok(())
}

fn judge_some(
    judge: &Judge,
    group: &Reference,
    recent: &[Vec<u8>],
    random: &mut Random,
    tally: &mut Tally,
) -> Result<(), String> {
    let mut written: Vec<&[u8]> = judge.written().collect();
    // A map has them in any order.
    written.sort_unstable();
    random.shuffle(&mut written);
    written.truncate(OF_A_SORT);
    for batch in &written {
        judge_one(judge, batch, tally)?;
        judge_one(judge, &spoiled(batch, random), tally)?;
        judge_one(judge, &spoiled(&spoiled(batch, random), random), tally)?;
    }
    let mut forge = Forge::new(group, Random::new(random.next()));
    for _ in 0..OF_A_SORT {
        judge_one(judge, &write(&forge.batch()), tally)?;
    }
    for batch in recent.iter().rev().take(OF_A_SORT) {
        judge_one(judge, batch, tally)?;
        judge_one(judge, &spoiled(batch, random), tally)?;
    }
    Ok(())
}

fn judge_one(judge: &Judge, batch: &[u8], tally: &mut Tally) -> Result<(), String> {
    let (by_events, by_form) = (judge.after(batch), judge.after_by_closed_form(batch));
    if by_events != by_form {
        let words = |after: &Option<Reference>| match after {
            Some(_) => "good",
            None => "refused",
        };
        let (by_events, by_form) = (words(&by_events), words(&by_form));
        return Err(format!(
            "{batch:02X?}: by events {by_events}, by closed form {by_form}"
        ));
    }
    tally.judged += 1;
    let kind = cause_of_batch(batch);
    match by_form {
        Some(after) => {
            tally.good[kind as usize] += 1;
            let leaves = kind == Cause::Install && !Snapshot::of(&after).holes().is_empty();
            tally.leaving_slots += u64::from(leaves);
        }
        None => tally.refused[kind as usize] += 1,
    }
    Ok(())
}

impl Tally {
    /// All that was never met, in words. No whole batch has a cause before these.
    pub fn never(&self) -> Vec<String> {
        let first = Cause::NoRecords as usize;
        let mut never = Vec::new();
        for &kind in &Cause::ALL[first..] {
            if self.refused[kind as usize] == 0 {
                never.push(format!("refused: {}", kind.label()));
            }
            let is_of_event = kind as usize > Cause::NoOrder as usize;
            if is_of_event && self.good[kind as usize] == 0 {
                never.push(format!("good: {}", kind.label()));
            }
        }
        for (count, what) in [
            (self.full, "a full group"),
            (self.at_end, "G's largest value"),
            (
                self.leaving_slots,
                "good: an install that leaves slots over",
            ),
        ] {
            if count == 0 {
                never.push(what.into());
            }
        }
        never
    }
}

impl fmt::Display for Tally {
    fn fmt(&self, f: &mut fmt::Formatter) -> fmt::Result {
        let (judged, groups) = (self.judged, self.groups);
        let (full, at_end, leaving) = (self.full, self.at_end, self.leaving_slots);
        writeln!(f, "{judged:>10}  batches judged on {groups} groups")?;
        writeln!(f, "{full:>10}  groups had 32 members")?;
        writeln!(f, "{at_end:>10}  were at G's largest value")?;
        writeln!(
            f,
            "{leaving:>10}  good batches were of installs that leave slots over"
        )?;
        writeln!(f, "\n      good   refused")?;
        for &kind in &Cause::ALL[Cause::NoRecords as usize..] {
            let (good, refused) = (self.good[kind as usize], self.refused[kind as usize]);
            writeln!(f, "{good:>10}{refused:>10}  {}", kind.label())?;
        }
        Ok(())
    }
}
