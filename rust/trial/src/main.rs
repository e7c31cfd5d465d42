//! A trial from the command line:
//! `cargo run --manifest-path rust/Cargo.toml --release -p trial -- --events 10000000 --seed 1`.

use std::process::ExitCode;
use std::time::{Duration, Instant};

use trial::explore::{explore, Plan};
use trial::sides::{Proved, Reference, Tuned};
use trial::tally::Tally;
use trial::Coordinator;

const USAGE: &str = "usage: trial [--subject NAME] [--events N] [--seed N] [--run N]
  --subject NAME  proved or tuned, to be compared with plain (default proved)
  --events N      go on until there were N events (default 1000000)
  --seed N        the seed of all runs (default 1)
  --run N         only the Nth run of the seed

Ends with a table of what was met. Fails where the two coordinators differ, where
01's ledger or the three rounds don't hold, where a range target isn't request 4's,
and where a million events or more went without some refusal of 01's table, or
another thing that is to be met.";

/// So many events meet all that is to be met, or something is wrong with the trial.
const ENOUGH: u64 = 1_000_000;

fn main() -> ExitCode {
    let words: Vec<String> = std::env::args().skip(1).collect();
    if words.iter().any(|word| word == "--help") {
        println!("{USAGE}");
        return ExitCode::SUCCESS;
    }
    match request(words.into_iter()) {
        Ok((Subject::Proved, plan)) => run::<Proved>(plan),
        Ok((Subject::Tuned, plan)) => run::<Tuned>(plan),
        Err(what) => {
            eprintln!("{what}\n{USAGE}");
            ExitCode::from(2)
        }
    }
}

enum Subject {
    Proved,
    Tuned,
}

fn run<S: Coordinator>(plan: Plan) -> ExitCode {
    let begun = Instant::now();
    let mut shown = begun;
    let outcome = explore::<S, Reference>(plan, |tally| {
        if shown.elapsed() >= Duration::from_secs(5) {
            shown = Instant::now();
            show_progress(tally, plan, begun);
        }
    });
    match outcome {
        Ok(tally) => finish(&tally, plan, begun),
        Err(report) => {
            print!("{report}");
            ExitCode::FAILURE
        }
    }
}

fn finish(tally: &Tally, plan: Plan, begun: Instant) -> ExitCode {
    print!("{tally}");
    let mut never = tally.never();
    if plan.run.is_some() {
        never.clear();
    }
    for what in &never {
        println!("never met: {what}");
    }
    let seconds = begun.elapsed().as_secs_f64();
    println!("\nno difference, seed {}, {seconds:.1} s", plan.seed);
    if never.is_empty() || tally.events < ENOUGH {
        ExitCode::SUCCESS
    } else {
        ExitCode::FAILURE
    }
}

fn show_progress(tally: &Tally, plan: Plan, begun: Instant) {
    let per_second = tally.events as f64 / begun.elapsed().as_secs_f64();
    let (events, all) = (tally.events, plan.events);
    eprintln!("{events} of {all} events, {per_second:.0} a second");
}

fn request(mut words: impl Iterator<Item = String>) -> Result<(Subject, Plan), String> {
    let mut subject = Subject::Proved;
    let mut plan = Plan {
        seed: 1,
        events: 1_000_000,
        run: None,
    };
    while let Some(word) = words.next() {
        let value = words.next().unwrap_or_default();
        let number = || {
            let number = value.parse();
            number.map_err(|_| format!("{word}: a number must follow"))
        };
        match word.as_str() {
            "--subject" => subject = subject_of(&value)?,
            "--events" => plan.events = number()?,
            "--seed" => plan.seed = number()?,
            "--run" => plan.run = Some(number()?),
            _ => return Err(format!("{word} is unknown")),
        }
    }
    Ok((subject, plan))
}

fn subject_of(name: &str) -> Result<Subject, String> {
    match name {
        "proved" => Ok(Subject::Proved),
        "tuned" => Ok(Subject::Tuned),
        _ => Err("--subject: proved or tuned must follow".into()),
    }
}
