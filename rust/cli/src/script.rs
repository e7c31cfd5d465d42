//! Runs a script line by line and stops at the first that is wrong.

use std::io::{BufRead, Read, Write};

use crate::failure::Failure;
use crate::line::{self, Step};
use crate::session::Session;
use crate::words::{words, Fault};

/// A longer line is no script's.
const LONGEST: usize = 65_536;

/// `name` is what messages call the input.
pub fn run<W: Write>(
    name: &str,
    input: &mut dyn BufRead,
    session: &mut Session<W>,
) -> Result<(), Failure> {
    let mut number = 0;
    loop {
        number += 1;
        let at = format!("{name}, line {number}");
        let Some(line) = next_line(&at, input).map_err(Failure::Input)? else {
            return Ok(());
        };
        match step(&line, session.has_batches()) {
            Ok(Some(step)) => session.step(&line, &step)?,
            Ok(None) => {}
            Err(fault) => return Err(Failure::Input(report(&at, &line, &fault))),
        }
    }
}

/// What the line says; a journal is of one group.
fn step(line: &str, has_batches: bool) -> Result<Option<Step>, Fault> {
    let step = line::read(line)?;
    match (&step, words(line).first()) {
        (Some(Step::Fresh { .. }), Some(word)) if has_batches => Err(word.fault(
            "the journal has a group already",
            "no 'fresh' once a batch is stored, or another journal",
        )),
        _ => Ok(step),
    }
}

/// The next line without its end; None after the last.
fn next_line(at: &str, input: &mut dyn BufRead) -> Result<Option<String>, String> {
    let mut bytes = Vec::new();
    let mut limited = input.take(LONGEST as u64 + 1);
    let read = limited.read_until(b'\n', &mut bytes);
    read.map_err(|error| format!("{at}: it cannot be read: {error}"))?;
    if bytes.len() > LONGEST {
        return Err(format!("{at}: it is longer than {LONGEST} bytes"));
    }
    if bytes.is_empty() {
        return Ok(None);
    }
    match String::from_utf8(bytes) {
        Ok(line) => Ok(Some(line.trim_end().into())),
        Err(_) => Err(format!("{at}: it is not text in UTF-8")),
    }
}

/// The fault with the line and, below it, marks under the word that is wrong.
fn report(at: &str, line: &str, fault: &Fault) -> String {
    let without_controls = |text: &str| text.replace(char::is_control, " ");
    let before = line[..fault.at].chars().count();
    let word = &line[fault.at..fault.at + fault.length];
    let marks = word.chars().count().max(1);
    format!(
        "{at}: {}\n    {}\n    {:before$}{}\n    expected {}",
        without_controls(&fault.wrong),
        without_controls(line),
        "",
        "^".repeat(marks),
        fault.expected
    )
}

#[cfg(test)]
mod tests;
