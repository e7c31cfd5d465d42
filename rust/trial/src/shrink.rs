//! From a run that fails to a short one: events are cut away in ever smaller pieces, as long as the
//! rest still fails the same check. Each cut is tried as it is and repaired (`repair`). In the end
//! single events are made plainer.

use std::ops::Range;

use crate::coordinator::Coordinator;
use crate::data::{
    Beat, Event, Id, Run, Turn, NO_PLACE, PARTITIONS, PLACES, ROOMY, SLOTS, ZERO_ID,
};
use crate::panics::caught;
use crate::repair::{begun_later, repaired_without};
use crate::rounds::three_rounds;
use crate::trial::{Check, Fault, Trial};

/// Runs played at most in the search for a shorter one.
const BUDGET: usize = 6_000;

/// Where a run failed: the index of the event, or the number of events for the rounds after them.
#[derive(Clone, PartialEq, Eq, Debug)]
pub struct Failure {
    pub at: usize,
    pub fault: Fault,
}

/// Plays a run from its start.
pub fn play<S: Coordinator, R: Coordinator>(run: &Run) -> Option<Failure> {
    caught(|| failure::<S, R>(run)).unwrap_or_else(|fault| {
        let at = run.turns.len();
        Some(Failure { at, fault })
    })
}

fn failure<S: Coordinator, R: Coordinator>(run: &Run) -> Option<Failure> {
    let mut trial = Trial::<S, R>::new(run.start);
    for (at, turn) in run.turns.iter().enumerate() {
        if let Err(fault) = trial.step(turn) {
            return Some(Failure { at, fault });
        }
    }
    let at = run.turns.len();
    let fault = three_rounds(&mut trial, run.rounds?, |_, _| ()).err()?;
    Some(Failure { at, fault })
}

/// A run that fails as this one does, and is as short as could be found.
pub fn shrink<S: Coordinator, R: Coordinator>(run: &Run, check: Check) -> Run {
    let mut search = Search {
        check,
        budget: BUDGET,
    };
    let Some(mut run) = search.failing::<S, R>(run.clone()) else {
        return run.clone();
    };
    run = search.cut::<S, R>(run);
    run = search.simplify::<S, R>(run);
    search.cut::<S, R>(run)
}

struct Search {
    check: Check,
    budget: usize,
}

impl Search {
    /// The run up to its failure, if it still fails.
    fn failing<S: Coordinator, R: Coordinator>(&mut self, mut run: Run) -> Option<Run> {
        self.budget = self.budget.checked_sub(1)?;
        let failure = play::<S, R>(&run)?;
        if failure.fault.check != self.check {
            return None;
        }
        if failure.at < run.turns.len() {
            run.turns.truncate(failure.at + 1);
            run.rounds = None;
        }
        Some(run)
    }

    /// Cuts pieces of half the length, then of a quarter, and so on; single events until none of
    /// them can go.
    fn cut<S: Coordinator, R: Coordinator>(&mut self, mut run: Run) -> Run {
        let mut size = run.turns.len().div_ceil(2).max(1);
        loop {
            let mut at = 0;
            let mut shorter = false;
            while at < run.turns.len() {
                let piece = at..(at + size).min(run.turns.len());
                match self.without::<S, R>(&run, piece.clone()) {
                    Some(rest) => {
                        run = rest;
                        shorter = true;
                    }
                    None => at = piece.end,
                }
            }
            if size == 1 && !shorter {
                return run;
            }
            size = size.div_ceil(2);
        }
    }

    fn without<S: Coordinator, R: Coordinator>(
        &mut self,
        run: &Run,
        piece: Range<usize>,
    ) -> Option<Run> {
        let mut rest = run.clone();
        rest.turns.drain(piece.clone());
        if let Some(rest) = self.failing::<S, R>(rest) {
            return Some(rest);
        }
        let (repaired, lost) = repaired_without::<R>(run, piece.clone(), run.start);
        if let Some(rest) = self.failing::<S, R>(repaired) {
            return Some(rest);
        }
        let later = begun_later(run.start, lost)?;
        let (repaired, _) = repaired_without::<R>(run, piece, later);
        self.failing::<S, R>(repaired)
    }

    /// Makes all topics smaller, and then single events plainer: all the room, nothing given that
    /// needn't be, shorter lists.
    fn simplify<S: Coordinator, R: Coordinator>(&mut self, mut run: Run) -> Run {
        let smaller = [1, 2, 4, 8, 32].map(|most| with_partitions(&run, most));
        let mut smaller = smaller.into_iter();
        if let Some(smaller) = smaller.find_map(|smaller| self.failing::<S, R>(smaller)) {
            run = smaller;
        }
        let mut at = 0;
        while at < run.turns.len() {
            for change in changes(&run.turns[at].event) {
                let mut changed = run.clone();
                change(&mut changed.turns[at]);
                if changed == run {
                    continue;
                }
                if let Some(changed) = self.failing::<S, R>(changed) {
                    run = changed;
                }
                if at >= run.turns.len() {
                    return run;
                }
            }
            at += 1;
        }
        let renamed = with_short_ids(&run);
        self.failing::<S, R>(renamed).unwrap_or(run)
    }
}

type Change = Box<dyn Fn(&mut Turn)>;

/// Ways to make a turn with this event plainer.
fn changes(event: &Event) -> Vec<Change> {
    let mut changes: Vec<Change> = vec![
        Box::new(|turn| turn.buffer = ROOMY),
        Box::new(|turn| turn.list = SLOTS),
        Box::new(|turn| turn.fill = 0),
    ];
    match event {
        Event::Heartbeat(beat) if beat.epoch > 0 => changes.extend([
            change_beat(|beat| beat.timeout = -1),
            change_beat(|beat| beat.subscription = None),
            change_beat(|beat| beat.owned = beat.owned.take().map(|_| Vec::new())),
            change_beat(|beat| beat.owned = None),
        ]),
        Event::Install { .. } => changes.extend((0..PLACES).map(hand_over)),
        _ => {}
    }
    changes
}

fn change_beat(change: impl Fn(&mut Beat) + 'static) -> Change {
    Box::new(move |turn| {
        if let Event::Heartbeat(beat) = &mut turn.event {
            change(beat);
        }
    })
}

/// What an install gives to the place goes to whoever has its first slot, so that none is left over.
fn hand_over(place: u8) -> Change {
    Box::new(move |turn| {
        if let Event::Install { entries, .. } = &mut turn.event {
            let first = entries.iter().copied().find(|&entry| entry != NO_PLACE);
            for entry in entries.iter_mut().filter(|entry| **entry == place) {
                *entry = first.unwrap_or(NO_PLACE);
            }
        }
    })
}

/// The same run with no more partitions than these in any topic.
fn with_partitions(run: &Run, most: usize) -> Run {
    let is_within = |slot: usize| slot % PARTITIONS < most;
    let mut smaller = run.clone();
    for turn in &mut smaller.turns {
        match &mut turn.event {
            Event::Topic { count, .. } => *count = (*count).min(most as u32),
            Event::Install { entries, .. } => {
                let beyond = entries.iter_mut().enumerate();
                for (_, entry) in beyond.filter(|(slot, _)| !is_within(*slot)) {
                    *entry = NO_PLACE;
                }
            }
            Event::Heartbeat(Beat {
                owned: Some(owned), ..
            }) => owned.retain(|&slot| is_within(slot.into())),
            _ => {}
        }
    }
    smaller
}

/// The same run with members' IDs AA*, AB* and so on, in the order of their first heartbeats.
fn with_short_ids(run: &Run) -> Run {
    let mut known: Vec<Id> = Vec::new();
    let mut renamed = run.clone();
    for turn in &mut renamed.turns {
        if let Event::Heartbeat(beat) = &mut turn.event {
            if beat.id == ZERO_ID {
                continue;
            }
            let number = known.iter().position(|id| *id == beat.id);
            let number = number.unwrap_or_else(|| {
                known.push(beat.id);
                known.len() - 1
            });
            beat.id = [0xAA_u8.wrapping_add(number as u8).max(1); 16];
        }
    }
    renamed
}
