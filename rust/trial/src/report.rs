//! What is printed when a trial fails: where, what differed, and the shortest list of events found.

use std::fmt;

use crate::coordinator::Coordinator;
use crate::data::Run;
use crate::panics::caught;
use crate::rounds::three_rounds;
use crate::shrink::{play, shrink, Failure};
use crate::trial::{Fault, Step, Trial};

#[derive(Clone, Debug)]
pub struct Report {
    pub seed: u64,
    pub run: u64,
    pub profile: &'static str,
    /// The last event of the run before it failed, or at which it did.
    pub event: usize,
    pub fault: Fault,
    pub shortest: Run,
    /// How the shortest run fails, and the run as it went, one event a line.
    pub shortest_failure: Option<Failure>,
    lines: Vec<String>,
}

impl Report {
    pub fn new<S: Coordinator, R: Coordinator>(
        seed: u64,
        index: u64,
        profile: &'static str,
        run: Run,
        fault: Fault,
    ) -> Report {
        let shortest = shrink::<S, R>(&run, fault.check);
        Report {
            seed,
            run: index,
            profile,
            event: run.turns.len().saturating_sub(1),
            fault,
            shortest_failure: play::<S, R>(&shortest),
            lines: caught(|| lines::<S, R>(&shortest)).unwrap_or_default(),
            shortest,
        }
    }
}

/// Each event of the run with its answer, those of the rounds at its end too.
fn lines<S: Coordinator, R: Coordinator>(run: &Run) -> Vec<String> {
    let mut lines = vec![run.start.to_string()];
    let mut trial = Trial::<S, R>::new(run.start);
    for (index, turn) in run.turns.iter().enumerate() {
        let number = index + 1;
        let result = trial.step(turn);
        lines.push(format!("{number:>3}  {turn} -> {}", reply(&result)));
    }
    if let Some(seed) = run.rounds {
        lines.push("three rounds follow".into());
        // Their fault stands below these lines.
        let _ = three_rounds(&mut trial, seed, |turn, result| {
            lines.push(format!("     {turn} -> {}", reply(result)));
        });
    }
    lines
}

fn reply(result: &Result<Step, Fault>) -> String {
    match result {
        Ok(step) => step.reply.to_string(),
        Err(_) => "fails".into(),
    }
}

impl fmt::Display for Report {
    fn fmt(&self, f: &mut fmt::Formatter) -> fmt::Result {
        let (seed, run) = (self.seed, self.run);
        writeln!(
            f,
            "FAILED with seed {seed}, run {run} ({}), event {}",
            self.profile, self.event
        )?;
        writeln!(f, "  {}", self.fault)?;
        writeln!(
            f,
            "again, with the same --subject: cargo run --manifest-path rust/Cargo.toml --release -p trial -- --seed {seed} --run {run}"
        )?;
        let count = self.shortest.turns.len();
        writeln!(f, "the shortest list found, {count} events:")?;
        for line in &self.lines {
            writeln!(f, "  {line}")?;
        }
        if let Some(failure) = &self.shortest_failure {
            writeln!(f, "  {}", failure.fault)?;
        }
        Ok(())
    }
}
