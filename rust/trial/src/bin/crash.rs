//! A trial of brokers that are killed, from the command line:
//! `cargo run --manifest-path rust/Cargo.toml --release -p trial --bin crash -- --kills 500`.

use std::env;
use std::fs;
use std::io;
use std::path::Path;
use std::process::{self, ExitCode};
use std::time::Instant;

use trial::crash::careless::{serve_with, Fault};
use trial::crash::{explore, serve, Place, Plan, Tally};

const USAGE: &str = "usage: crash [--kills N] [--seed N]
       crash serve JOURNAL TICK
       crash careless FAULT JOURNAL TICK
  --kills N  go on until brokers were killed N times (default 300)
  --seed N   the seed of all (default 1)

Brokers that keep their journal in a file are killed at random moments and started
again. Ends with a table, and fails where an answer that went out is not in the
file, where two readers differ, or where 01's ledger doesn't hold.

With serve it is such a broker: events come from standard input, a line each. With
careless it is one that does something wrong, which the trial must find out:
tells-first, keeps-tail, forgets or starts-anew.";

/// So many kills meet everything, or something is wrong with the trial.
const ENOUGH: u64 = 200;

fn main() -> ExitCode {
    let words: Vec<String> = env::args().skip(1).collect();
    let words: Vec<&str> = words.iter().map(String::as_str).collect();
    match words[..] {
        ["serve", journal, tick] => as_broker(tick, |tick| serve(Path::new(journal), tick)),
        ["careless", fault, journal, tick] => match Fault::named(fault) {
            Some(fault) => as_broker(tick, |tick| serve_with(fault, Path::new(journal), tick)),
            None => {
                eprintln!("{fault} is no fault\n{USAGE}");
                ExitCode::from(2)
            }
        },
        ["--help", ..] => {
            println!("{USAGE}");
            ExitCode::SUCCESS
        }
        _ => match plan(&words) {
            Ok(plan) => run(plan),
            Err(what) => {
                eprintln!("{what}\n{USAGE}");
                ExitCode::from(2)
            }
        },
    }
}

fn as_broker(tick: &str, serve: impl FnOnce(u32) -> io::Result<()>) -> ExitCode {
    let Ok(tick) = tick.parse() else {
        eprintln!("{tick} is no tick\n{USAGE}");
        return ExitCode::from(2);
    };
    match serve(tick) {
        Ok(()) => ExitCode::SUCCESS,
        Err(error) => {
            eprintln!("{error}");
            ExitCode::FAILURE
        }
    }
}

fn plan(words: &[&str]) -> Result<Plan, String> {
    let mut plan = Plan {
        seed: 1,
        kills: 300,
    };
    for pair in words.chunks(2) {
        let number = || {
            let value = pair.get(1).and_then(|word| word.parse().ok());
            value.ok_or_else(|| format!("{}: a number must follow", pair[0]))
        };
        match pair[0] {
            "--kills" => plan.kills = number()?,
            "--seed" => plan.seed = number()?,
            other => return Err(format!("{other} is unknown")),
        }
    }
    Ok(plan)
}

fn run(plan: Plan) -> ExitCode {
    let begun = Instant::now();
    match in_folder(plan) {
        Ok(tally) => {
            let seconds = begun.elapsed().as_secs_f64();
            println!(
                "{tally}\nno answer lost, seed {}, {seconds:.1} s",
                plan.seed
            );
            let never = tally.never();
            for what in &never {
                println!("never met: {what}");
            }
            let is_short = tally.kills < ENOUGH;
            ExitCode::from(u8::from(!never.is_empty() && !is_short))
        }
        Err(what) => {
            println!("FAILED: {what}");
            ExitCode::FAILURE
        }
    }
}

/// The journals lie in a folder of their own. It stays where something failed.
fn in_folder(plan: Plan) -> Result<Tally, String> {
    let folder = env::temp_dir().join(format!("pankvisolo-crash-{}", process::id()));
    let about = |error| format!("{}: {error}", folder.display());
    fs::create_dir_all(&folder).map_err(about)?;
    let program = env::current_exe().map_err(|error| format!("this program: {error}"))?;
    let place = Place {
        program,
        arguments: vec!["serve".into()],
        folder: folder.clone(),
    };
    let tally = explore(&place, plan, |tally| {
        eprintln!("{} of {} kills", tally.kills, plan.kills);
    })?;
    fs::remove_dir_all(&folder).map_err(about)?;
    Ok(tally)
}
