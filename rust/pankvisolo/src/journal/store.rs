//! A journal in a file.

use std::fmt::Display;
use std::fs::{File, OpenOptions, TryLockError};
use std::io::{self, ErrorKind, Read};
use std::ops::Deref;
use std::os::unix::fs::FileExt;
use std::path::{Path, PathBuf};

use super::{frame, read, Reading, Verdict, HEADING};
use crate::ffi;
use crate::group::Group;
use crate::protocol::{Answer, Heartbeat, Id, Reply};

/// "No event needs more than 4,096 bytes."
const RECORDS: usize = 4_096;
/// Any event's records and their length.
const BATCH: usize = RECORDS + 2;

/// A journal in a file, and the group that is read from it.
///
/// An event's batch is written and synced before its answer is handed out, and a torn tail is cut
/// off before anything is stored again. The file is locked for as long as the store lives, so that no
/// second one is opened on it, here or in another process.
///
/// After an I/O error it is not known what reached the disk: whoever sent the event gets no answer,
/// and the store refuses every event until the journal is opened again.
///
/// ```
/// use pankvisolo::journal::Store;
/// use pankvisolo::Answer;
///
/// # fn main() -> std::io::Result<()> {
/// # let folder = std::env::temp_dir().join(format!("pankvisolo-doc-{}", std::process::id()));
/// # std::fs::create_dir_all(&folder)?;
/// # let path = folder.join("group.journal");
/// let mut store = Store::open(&path, 1_000)?;
/// assert_eq!(store.topic(0, [0x11; 16], 3)?, Answer::Done); // and is stored
/// drop(store);
///
/// let store = Store::open(&path, 2_000)?;
/// assert_eq!(store.group().topic_at(0).map(|topic| topic.count), Some(3));
/// # std::fs::remove_dir_all(&folder)
/// # }
/// ```
pub struct Store {
    path: PathBuf,
    file: Locked,
    group: Group,
    /// Where the next batch is to stand.
    end: u64,
    /// What went wrong, after which nothing is served.
    failed: Option<String>,
    lent: Box<Lent>,
}

/// What an event is lent, and the group that it changes: none of it is seen outside before the
/// event's batch is stored.
struct Lent {
    group: Group,
    records: [u8; RECORDS],
    slots: [u16; ffi::SLOTS],
    batch: [u8; BATCH],
}

impl Store {
    /// Opens the journal, makes it where there is none, and reads it at a tick. It is read without the
    /// rule that a target leaves no slot over, to which each [`install`](Store::install) is held.
    ///
    /// # Errors
    ///
    /// A journal that is refused is `InvalidData`; the message has the offset, and the file is left as
    /// it is. One that is open already is `WouldBlock`. The rest is what the system says. Every message
    /// has the path.
    pub fn open(path: &Path, tick: u32) -> io::Result<Store> {
        let file = Locked::open(path)?;
        let mut bytes = Vec::new();
        (&*file)
            .read_to_end(&mut bytes)
            .map_err(|error| failed(path, "the journal cannot be read", error))?;
        let Reading {
            group,
            end,
            verdict,
        } = read(&bytes, tick);
        match verdict {
            Verdict::Whole => {}
            Verdict::Torn { .. } => cut(path, &file, end as u64)?,
            Verdict::Refused { offset } => return Err(refused(path, offset)),
        }
        let end = ready(path, &file, end as u64)?;
        let lent = Lent {
            group: group.clone(),
            records: [0; RECORDS],
            slots: [0; ffi::SLOTS],
            batch: [0; BATCH],
        };
        Ok(Store {
            path: path.into(),
            file,
            group,
            end,
            failed: None,
            lent: Box::new(lent),
        })
    }

    /// The group after the last event that was answered. After an I/O error too, though the batch of
    /// the event that met it may be found in the file when it is opened again.
    pub fn group(&self) -> &Group {
        &self.group
    }

    /// A member joins, leaves or says that it is there. The slots of the answer go to `assignment`;
    /// it is as it was where there is an error.
    pub fn heartbeat(&mut self, request: &Heartbeat, assignment: &mut [u16]) -> io::Result<Answer> {
        let room = assignment.len().min(ffi::SLOTS);
        let answer = self.serve(|lent| {
            let Lent { group, records, .. } = lent;
            group.heartbeat(request, records, &mut lent.slots[..room])
        })?;
        if let Answer::Assignment { count, .. } = answer {
            assignment[..count].copy_from_slice(&self.lent.slots[..count]);
        }
        Ok(answer)
    }

    /// Removes the members that weren't heard for too long, or took too long to give slots back.
    pub fn sweep(&mut self, tick: u32) -> io::Result<Answer> {
        self.serve(|lent| lent.group.sweep(tick, &mut lent.records))
    }

    /// Makes a topic, or raises its number of partitions.
    pub fn topic(&mut self, number: u32, id: Id, count: u32) -> io::Result<Answer> {
        self.serve(|lent| lent.group.topic(number, id, count, &mut lent.records))
    }

    /// Sets who is to have each slot: an entry for each of the 1,024, a place or 255 for nobody. Which
    /// lists are refused stands at [`Group::install`]. A host without an assignor of its own has
    /// [`store.group().range_target()`](Group::range_target).
    pub fn install(&mut self, epoch: i32, entries: &[u8]) -> io::Result<Answer> {
        self.serve(|lent| lent.group.install(epoch, entries, &mut lent.records))
    }

    /// The answer of the event, once what it wrote is stored.
    fn serve(&mut self, event: impl FnOnce(&mut Lent) -> Reply) -> io::Result<Answer> {
        if let Some(what) = &self.failed {
            let path = self.path.display();
            return Err(io::Error::other(format!(
                "{path}: nothing is served until the journal is opened again, because {what}"
            )));
        }
        self.lent.group.clone_from(&self.group);
        let reply = event(&mut self.lent);
        self.store(reply.written)?;
        self.group.clone_from(&self.lent.group);
        Ok(reply.answer)
    }

    /// Writes and syncs the batch, where the event wrote one.
    fn store(&mut self, written: usize) -> io::Result<()> {
        if written == 0 {
            return Ok(());
        }
        let Lent { records, batch, .. } = &mut *self.lent;
        let Some(length) = frame(&records[..written], batch) else {
            unreachable!("no event writes {written} bytes");
        };
        let stored = self.file.write_all_at(&batch[..length], self.end);
        if let Err(error) = stored.and_then(|()| self.file.sync_data()) {
            let what = format!("the batch at offset {} could not be stored", self.end);
            self.failed = Some(format!("{what}: {error}"));
            let what = format!("{what}, and nothing is served until the journal is opened again");
            return Err(failed(&self.path, what, error));
        }
        self.end += length as u64;
        Ok(())
    }
}

/// A file that no other has open this way.
struct Locked(File);

impl Deref for Locked {
    type Target = File;

    fn deref(&self) -> &File {
        &self.0
    }
}

impl Drop for Locked {
    /// Closing it wouldn't do while a process that was just started still has it from this one.
    fn drop(&mut self) {
        // Where this fails, the file is closed next, which is all that can be done.
        let _ = self.0.unlock();
    }
}

impl Locked {
    /// Made where there was none.
    fn open(path: &Path) -> io::Result<Locked> {
        let mut options = OpenOptions::new();
        options.read(true).write(true).create(true).truncate(false);
        let file = options
            .open(path)
            .map_err(|error| failed(path, "the journal cannot be opened", error))?;
        let data = file.metadata();
        let data = data.map_err(|error| failed(path, "the journal cannot be opened", error))?;
        if !data.is_file() {
            let what = format!(
                "{}: a journal is a regular file, and this is none",
                path.display()
            );
            return Err(io::Error::new(ErrorKind::InvalidInput, what));
        }
        file.try_lock().map_err(|error| match error {
            TryLockError::WouldBlock => {
                let what = "the journal is open already, in this process or another";
                let what = format!("{}: {what}", path.display());
                io::Error::new(ErrorKind::WouldBlock, what)
            }
            TryLockError::Error(error) => failed(path, "the journal cannot be locked", error),
        })?;
        Ok(Locked(file))
    }
}

/// Cuts the torn tail off; synced before anything is stored.
fn cut(path: &Path, file: &File, end: u64) -> io::Result<()> {
    let cut = file.set_len(end).and_then(|()| file.sync_data());
    let what = format!("the journal's torn tail, from offset {end} on, cannot be cut off");
    cut.map_err(|error| failed(path, what, error))
}

/// Where the next batch is to stand, in a file that is good up to `end` and ends there. It has a
/// heading from now on, and is synced: what was found whole counts as stored, and whoever wrote it may
/// have been stopped before it was synced.
fn ready(path: &Path, file: &File, end: u64) -> io::Result<u64> {
    let heading = HEADING.len() as u64;
    if end < heading {
        let written = file.write_all_at(&HEADING, 0);
        written.map_err(|error| failed(path, "the journal's heading cannot be written", error))?;
    }
    let synced = file.sync_data();
    synced.map_err(|error| failed(path, "the journal cannot be synced", error))?;
    if end <= heading {
        sync_folder(path)?;
    }
    Ok(end.max(heading))
}

/// So that a file that was just made is found again. Before it has a batch this is done each time:
/// whoever made it may have been stopped before.
fn sync_folder(path: &Path) -> io::Result<()> {
    let synced = path.canonicalize().and_then(|path| {
        let folder = path.parent().unwrap_or(&path);
        File::open(folder)?.sync_all()
    });
    synced.map_err(|error| failed(path, "the journal's folder cannot be synced", error))
}

fn refused(path: &Path, offset: usize) -> io::Error {
    let path = path.display();
    let what = match offset {
        0 => "it does not begin with GRJ1",
        _ => "no event of the group so far would have written what stands there",
    };
    io::Error::new(
        ErrorKind::InvalidData,
        format!("{path}: the journal is refused at offset {offset}: {what}; it is left as it is"),
    )
}

fn failed(path: &Path, what: impl Display, error: io::Error) -> io::Error {
    io::Error::new(error.kind(), format!("{}: {what}: {error}", path.display()))
}

#[cfg(test)]
mod tests;
