//! Where the group is: in memory alone, or in a journal too.

use std::fs::{self, File};
use std::io::{self, BufReader, ErrorKind};
use std::path::{Path, PathBuf};

use crate::coordinator::journal::Store;
use crate::coordinator::Group;
use crate::event::{Event, Lent, Outcome};
use crate::found::Found;

pub enum Host {
    Memory(Group),
    Journal(Kept),
}

pub struct Kept {
    path: PathBuf,
    store: Store,
    has_batches: bool,
}

impl Host {
    /// A group made at tick 0, in memory.
    pub fn in_memory() -> Host {
        Host::Memory(Group::new(0))
    }

    /// The journal's group, read at a tick, and what the journal was found to be if it was there.
    pub fn open(path: &Path, tick: u32) -> io::Result<(Host, Option<Found>)> {
        // Opening cuts a torn tail off, so this comes first. Where both fail, the store says why.
        let found = look(path);
        if let Ok(Some(found)) = &found {
            is_good(path, found)?;
        }
        let store = Store::open(path, tick)?;
        let found = found?;
        let has_batches = found.as_ref().is_some_and(|found| found.batches > 0);
        let path = path.into();
        let kept = Kept {
            path,
            store,
            has_batches,
        };
        Ok((Host::Journal(kept), found))
    }

    pub fn group(&self) -> &Group {
        match self {
            Host::Memory(group) => group,
            Host::Journal(kept) => kept.store.group(),
        }
    }

    /// Whether there is a journal with a batch: then its group stays the one that it is of.
    pub fn has_batches(&self) -> bool {
        match self {
            Host::Memory(_) => false,
            Host::Journal(kept) => kept.has_batches,
        }
    }

    /// A fresh group. A journal's tick is that of its opening, so it is opened again.
    pub fn fresh(self, tick: u32) -> io::Result<Host> {
        match self {
            Host::Memory(_) => Ok(Host::Memory(Group::new(tick))),
            Host::Journal(Kept { path, store, .. }) => {
                drop(store);
                Ok(Host::open(&path, tick)?.0)
            }
        }
    }

    /// Runs the event. What it wrote is in the journal before anything comes back.
    pub fn run(&mut self, event: &Event, lent: Lent) -> io::Result<Outcome> {
        match self {
            Host::Memory(group) => Ok(event.run(group, lent)),
            Host::Journal(kept) => {
                let outcome = event.run_stored(&mut kept.store, lent)?;
                kept.has_batches |= !outcome.bytes.is_empty();
                Ok(outcome)
            }
        }
    }
}

/// An error that says where and why it is not.
fn is_good(path: &Path, found: &Found) -> io::Result<()> {
    let path = path.display();
    match found.refusal() {
        None => Ok(()),
        Some(refusal) => Err(io::Error::new(
            ErrorKind::InvalidData,
            format!("{path}: the journal is refused {refusal}; it is left as it is"),
        )),
    }
}

/// None where there is no file, or what is there is none: a pipe would be waited for.
fn look(path: &Path) -> io::Result<Option<Found>> {
    match fs::metadata(path) {
        Ok(data) if data.is_file() => {
            let mut file = BufReader::new(File::open(path)?);
            Ok(Some(Found::read(&mut file)?))
        }
        Ok(_) => Ok(None),
        Err(error) if error.kind() == ErrorKind::NotFound => Ok(None),
        Err(error) => Err(error),
    }
}
