//! The command `pankvisolo`: runs a script of events, one a line, on a consumer group and shows
//! each answer, the bytes to store and who holds, gives back and awaits each partition. It keeps the
//! group in a journal, where it is given one, and shows the group that a journal has.
#![forbid(unsafe_code)]

use std::io::{self, IsTerminal, StdoutLock, Write};
use std::process::ExitCode;

// The coordinator that runs the events; anything with the binding's names will do.
use pankvisolo as coordinator;

mod answer;
mod arguments;
mod event;
mod failure;
mod fields;
mod found;
mod group;
mod hex;
mod host;
mod id;
mod line;
mod picture;
mod script;
mod session;
mod slots;
mod style;
mod table;
mod target;
mod why;
mod words;
mod wrap;

use arguments::{Job, Journal, Source};
use failure::Failure;
use found::Found;
use host::Host;
use session::Session;
use style::Style;

const HELP: &str = include_str!("help.txt");
const EXAMPLE: &str = include_str!("example.txt");

fn main() -> ExitCode {
    let job = arguments::job(std::env::args_os().skip(1).collect());
    let stores = matches!(job, Ok(Job::Run(_, Some(_))));
    match job.map_err(Failure::Input).and_then(run) {
        Ok(()) => ExitCode::SUCCESS,
        // Whoever read the output has seen enough; but what was to be stored is not.
        Err(Failure::Output(error)) if error.kind() == io::ErrorKind::BrokenPipe && !stores => {
            ExitCode::SUCCESS
        }
        Err(failure) => complain(&failure),
    }
}

fn run(job: Job) -> Result<(), Failure> {
    let mut out = io::stdout().lock();
    match job {
        Job::Help => write!(out, "{HELP}{EXAMPLE}")?,
        Job::Example => write!(out, "{EXAMPLE}")?,
        Job::Version => writeln!(out, "pankvisolo {}", env!("CARGO_PKG_VERSION"))?,
        Job::Run(source, journal) => return run_script(&source, journal, out),
        Job::Read(source) => return show_journal(&source, out),
    }
    Ok(out.flush()?)
}

fn run_script(source: &Source, journal: Option<Journal>, out: StdoutLock) -> Result<(), Failure> {
    let mut input = source.open().map_err(Failure::Input)?;
    let style = Style::for_output(out.is_terminal());
    let out = io::BufWriter::new(out);
    let mut session = match journal {
        None => Session::new(Host::in_memory(), out, style),
        Some(Journal { path, tick }) => {
            let opened = Host::open(&path, tick);
            let (host, found) = opened.map_err(|error| Failure::Input(error.to_string()))?;
            let mut session = Session::new(host, out, style);
            if let Some(found) = found.filter(Found::has_batches_or_tail) {
                session.goes_on(&path.display().to_string(), &found)?;
            }
            session
        }
    };
    script::run(&source.name(), &mut input, &mut session)
}

fn show_journal(source: &Source, mut out: StdoutLock) -> Result<(), Failure> {
    let mut input = source.open().map_err(Failure::Input)?;
    let name = source.name();
    let found = Found::read(&mut input)
        .map_err(|error| Failure::Input(format!("{name}: it cannot be read: {error}")))?;
    let mut text = found.lines(Style::for_output(out.is_terminal())).join("\n");
    text.push('\n');
    let shown = out.write_all(text.as_bytes()).and_then(|()| out.flush());
    match found.refusal() {
        None => Ok(shown?),
        // Whether or not that was seen.
        Some(_) => Err(Failure::Input(format!("{name}: the journal is refused"))),
    }
}

/// Says what failed; the status is 2 where the input is at fault, else 1.
fn complain(failure: &Failure) -> ExitCode {
    let (status, text) = match failure {
        Failure::Input(text) => (2, text.clone()),
        Failure::Journal(error) => (1, error.to_string()),
        Failure::Output(error) => (1, format!("cannot write the output: {error}")),
    };
    // Nobody is left to tell where this fails too.
    let _ = writeln!(io::stderr(), "pankvisolo: {text}");
    ExitCode::from(status)
}
