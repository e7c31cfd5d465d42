//! Brokers that keep their journal wrongly, for tests that each is found out.

use std::fs::{File, OpenOptions};
use std::io::{self, BufRead, Read, Write};
use std::path::Path;
use std::thread;
use std::time::Duration;

use pankvisolo::journal::{frame, read, HEADING};
use pankvisolo::Group;

use super::wire::{self, Asked};
use crate::coordinator::Coordinator;
use crate::data::ROOMY;
use crate::labels::labels;

labels! {
    /// What the broker does wrong.
    pub enum Fault {
        TellsFirst = "tells-first",
        KeepsTail = "keeps-tail",
        Forgets = "forgets",
        StartsAnew = "starts-anew",
    }
}

impl Fault {
    pub fn named(name: &str) -> Option<Fault> {
        let mut all = Fault::ALL.iter().copied();
        all.find(|fault| fault.label() == name)
    }
}

/// One batch of so many is forgotten.
const FORGOTTEN: usize = 10;
/// So long an answer is out before its batch is written.
const EARLY: Duration = Duration::from_millis(1);

/// As `serve` does, with one fault.
pub fn serve_with(fault: Fault, journal: &Path, tick: u32) -> io::Result<()> {
    let (mut file, mut group) = open(fault, journal, tick)?;
    let mut out = io::stdout().lock();
    let end = file.metadata()?.len();
    out.write_all(wire::opened(end, &group).as_bytes())?;
    let mut batches = 0;
    for line in io::stdin().lock().lines() {
        let Some(asked) = Asked::of(&line?) else {
            return Err(io::ErrorKind::InvalidData.into());
        };
        let (mut records, mut list) = ([0; ROOMY], vec![0; asked.list]);
        let reply = group.serve(&asked.event, &mut records, &mut list);
        let answer = wire::answer(reply.answer, &list[..reply.answer.told()]);
        if fault == Fault::TellsFirst {
            out.write_all(answer.as_bytes())?;
            thread::sleep(EARLY);
        }
        let mut batch = [0; ROOMY + 2];
        if let Some(length) = frame(&records[..reply.written], &mut batch) {
            batches += 1;
            if fault != Fault::Forgets || batches % FORGOTTEN > 0 {
                file.write_all(&batch[..length])?;
                file.sync_data()?;
            }
        }
        if fault != Fault::TellsFirst {
            out.write_all(answer.as_bytes())?;
        }
    }
    Ok(())
}

/// The file at its end, and the group.
fn open(fault: Fault, journal: &Path, tick: u32) -> io::Result<(File, Group)> {
    let mut options = OpenOptions::new();
    options.read(true).append(true).create(true);
    let mut file = options.open(journal)?;
    let mut bytes = Vec::new();
    file.read_to_end(&mut bytes)?;
    let reading = read(&bytes, tick);
    if fault != Fault::KeepsTail {
        file.set_len(reading.end as u64)?;
    }
    if reading.end == 0 {
        file.set_len(0)?;
        file.write_all(&HEADING)?;
    }
    let group = match fault {
        Fault::StartsAnew => Group::new(tick),
        _ => reading.group,
    };
    Ok((file, group))
}
