//! A trial of journals from the command line:
//! `cargo run --manifest-path rust/Cargo.toml --release -p trial --bin journal -- --files 1000000`.

use std::fmt::Display;
use std::process::ExitCode;
use std::time::{Duration, Instant};

use trial::journal::{agree, compare};
use trial::sides::{Proved, Reference};

const USAGE: &str = "usage: journal [--files N] [--batches N] [--seed N] [--journal N]
  --files N    go on until two readers were given N files (default 200000)
  --batches N  go on until two judges were given N batches (default 1000000)
  --seed N     the seed of all (default 1)
  --journal N  only the files of the Nth journal of the seed

The proved reader and the plain one are given journals as they are written, and
damaged in every way; and plain's judge of batches is held against one that tries
every event. Ends with tables of what was met, and fails where two differ.";

struct Request {
    files: compare::Plan,
    batches: agree::Plan,
}

fn main() -> ExitCode {
    let words: Vec<String> = std::env::args().skip(1).collect();
    if words.iter().any(|word| word == "--help") {
        println!("{USAGE}");
        return ExitCode::SUCCESS;
    }
    let request = match request(words.into_iter()) {
        Ok(request) => request,
        Err(what) => {
            eprintln!("{what}\n{USAGE}");
            return ExitCode::from(2);
        }
    };
    let mut clock = Clock::new();
    let plan = request.files;
    let readers = compare::explore::<Proved, Reference>(plan, |tally| {
        clock.show(tally.files, plan.files, "files");
    });
    let is_same = ended(readers, plan.seed, &clock);
    if !is_same || plan.journal.is_some() {
        return ExitCode::from(u8::from(!is_same));
    }
    let mut clock = Clock::new();
    let plan = request.batches;
    let judges = agree::explore(plan, plain::journal::read_batch, |tally| {
        clock.show(tally.judged, plan.batches, "batches");
    });
    ExitCode::from(u8::from(!ended(judges, plan.seed, &clock)))
}

/// Whether there was no difference.
fn ended<T: Display, E: Display>(outcome: Result<T, E>, seed: u64, clock: &Clock) -> bool {
    match outcome {
        Ok(tally) => {
            let seconds = clock.begun.elapsed().as_secs_f64();
            println!("{tally}\nno difference, seed {seed}, {seconds:.1} s\n");
            true
        }
        Err(what) => {
            println!("{what}");
            false
        }
    }
}

struct Clock {
    begun: Instant,
    shown: Instant,
}

impl Clock {
    fn new() -> Clock {
        let begun = Instant::now();
        Clock {
            begun,
            shown: begun,
        }
    }

    fn show(&mut self, done: u64, all: u64, what: &str) {
        if self.shown.elapsed() >= Duration::from_secs(5) {
            self.shown = Instant::now();
            let per_second = done as f64 / self.begun.elapsed().as_secs_f64();
            eprintln!("{done} of {all} {what}, {per_second:.0} a second");
        }
    }
}

fn request(mut words: impl Iterator<Item = String>) -> Result<Request, String> {
    let mut files = compare::Plan {
        seed: 1,
        files: 200_000,
        journal: None,
    };
    let mut batches = agree::Plan {
        seed: 1,
        batches: 1_000_000,
    };
    while let Some(word) = words.next() {
        let value = words.next().unwrap_or_default();
        let number = value.parse();
        let number = number.map_err(|_| format!("{word}: a number must follow"));
        match word.as_str() {
            "--files" => files.files = number?,
            "--batches" => batches.batches = number?,
            "--seed" => {
                files.seed = number?;
                batches.seed = files.seed;
            }
            "--journal" => files.journal = Some(number?),
            _ => return Err(format!("{word} is unknown")),
        }
    }
    Ok(Request { files, batches })
}
