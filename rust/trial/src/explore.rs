//! A trial: runs of random events, each from a fresh group, until there are enough.

use crate::coordinator::Coordinator;
use crate::data::{Run, Turn};
use crate::generate::{Profile, World, PROFILES};
use crate::panics::caught;
use crate::random::Random;
use crate::range::try_installs;
use crate::report::Report;
use crate::rounds::three_rounds;
use crate::tally::Tally;
use crate::trial::{Check, Fault, Trial};

#[derive(Clone, Copy, Debug)]
pub struct Plan {
    pub seed: u64,
    /// Runs begin until there were so many events.
    pub events: u64,
    /// Only this run, where given.
    pub run: Option<u64>,
}

/// Compares the two over all runs of the plan; `progress` is shown the tally after each. The first
/// fault ends the trial with a report.
pub fn explore<S: Coordinator, R: Coordinator>(
    plan: Plan,
    mut progress: impl FnMut(&Tally),
) -> Result<Tally, Box<Report>> {
    let mut tally = Tally::new();
    if let Some(index) = plan.run {
        one_run::<S, R>(plan.seed, index, &mut tally)?;
        return Ok(tally);
    }
    let mut index = 0;
    while tally.events < plan.events {
        one_run::<S, R>(plan.seed, index, &mut tally)?;
        progress(&tally);
        index += 1;
    }
    Ok(tally)
}

/// The `index`th run of a seed, on its own.
fn one_run<S: Coordinator, R: Coordinator>(
    seed: u64,
    index: u64,
    tally: &mut Tally,
) -> Result<(), Box<Report>> {
    let profile = profile_of(index);
    let mut world = World::new(profile, Random::part(seed, index));
    let mut run = Run {
        start: world.start(),
        turns: Vec::new(),
        rounds: None,
    };
    tally.runs += 1;
    // A coordinator may panic outside its events too, where it is made or looked at.
    let outcome = caught(|| events::<S, R>(&mut world, &mut run, tally));
    outcome.and_then(|outcome| outcome).map_err(|fault| {
        let name = profile.name;
        Box::new(Report::new::<S, R>(seed, index, name, run, fault))
    })
}

/// The events of a run, which is left with those that there were.
fn events<S: Coordinator, R: Coordinator>(
    world: &mut World,
    run: &mut Run,
    tally: &mut Tally,
) -> Result<(), Fault> {
    let mut trial = Trial::<S, R>::new(run.start);
    for _ in 0..world.length() {
        let turn = world.next(&trial.reference);
        run.turns.push(turn.clone());
        let range_is_new = turn_of_world(&mut trial, world, &turn, tally)?;
        if range_is_new {
            installs_of_range(&trial, world.tries_exact_room(), run, tally)?;
        }
        rounds_at_times(&trial, world, run, tally)?;
    }
    tally.lost_answers += world.lost_answers;
    Ok(())
}

fn profile_of(index: u64) -> &'static Profile {
    &PROFILES[(index % PROFILES.len() as u64) as usize]
}

/// Whether the range target was looked at anew.
fn turn_of_world<S: Coordinator, R: Coordinator>(
    trial: &mut Trial<S, R>,
    world: &mut World,
    turn: &Turn,
    tally: &mut Tally,
) -> Result<bool, Fault> {
    let step = trial.step(turn)?;
    tally.count(turn, &step);
    world.learn(turn, step.reply, step.slots);
    Ok(step.range_is_new)
}

/// The range target is installed on copies. A fault there shows in any run; it needs no copies.
fn installs_of_range<S: Coordinator, R: Coordinator>(
    trial: &Trial<S, R>,
    exact_room: bool,
    run: &mut Run,
    tally: &mut Tally,
) -> Result<(), Fault> {
    let mut turns = Vec::new();
    let outcome = try_installs(trial, exact_room, &mut turns);
    run.turns.append(&mut turns);
    tally.ranges_tried += u64::from(outcome?);
    Ok(())
}

/// Three rounds are driven on a copy, and the run goes on as if they had not been.
fn rounds_at_times<S: Coordinator, R: Coordinator>(
    trial: &Trial<S, R>,
    world: &mut World,
    run: &mut Run,
    tally: &mut Tally,
) -> Result<(), Fault> {
    if trial.force.current().is_none() {
        return Ok(());
    }
    let Some(seed) = world.rounds() else {
        return Ok(());
    };
    let before = tally.events;
    let mut turns = Vec::new();
    let mut is_busy = false;
    let outcome = three_rounds(&mut trial.clone(), seed, |turn, result| {
        turns.push(turn.clone());
        if let Ok(step) = result {
            tally.count(turn, step);
            is_busy |= step.reply.written > 0;
        }
    });
    tally.rounds += 1;
    tally.busy_rounds += u64::from(is_busy);
    tally.events_in_rounds += tally.events - before;
    if let Err(fault) = &outcome {
        match fault.check {
            Check::Rounds => run.rounds = Some(seed),
            // A fault that shows in any run; it needs no rounds.
            _ => run.turns.append(&mut turns),
        }
    }
    outcome
}
