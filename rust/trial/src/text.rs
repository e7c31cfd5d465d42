//! Events and answers in words, one event a line.

use std::fmt;

use crate::data::{Answer, Beat, Event, Id, Member, Reply, Start, Turn, NO_PLACE, SLOTS};

/// "AA* is sixteen times AA"; any other ID in full.
pub fn id(id: &Id) -> String {
    if id.iter().all(|&byte| byte == id[0]) {
        return format!("{:02X}*", id[0]);
    }
    id.iter().map(|byte| format!("{byte:02X}")).collect()
}

impl fmt::Display for Start {
    fn fmt(&self, f: &mut fmt::Formatter) -> fmt::Result {
        match self {
            Start::Fresh { tick } => write!(f, "a fresh group made at tick {tick}"),
            Start::AtEpochs {
                tick,
                epoch,
                target_epoch,
            } => write!(
                f,
                "a fresh group made at tick {tick} with G {epoch}, T {target_epoch}"
            ),
        }
    }
}

impl fmt::Display for Turn {
    fn fmt(&self, f: &mut fmt::Formatter) -> fmt::Result {
        write!(f, "{} | buffer {}", self.event, self.buffer)?;
        match self.event {
            Event::Heartbeat(_) => write!(f, " list {}", self.list),
            _ => Ok(()),
        }
    }
}

impl fmt::Display for Event {
    fn fmt(&self, f: &mut fmt::Formatter) -> fmt::Result {
        match self {
            Event::Heartbeat(beat) => write!(f, "{beat}"),
            Event::Sweep { tick } => write!(f, "sweep at tick {tick}"),
            Event::Topic {
                number,
                id: topic,
                count,
            } => write!(f, "topic {number} id {} count {count}", id(topic)),
            Event::Install { epoch, entries } => {
                write!(f, "install {epoch}: {}", places(entries))
            }
        }
    }
}

impl fmt::Display for Beat {
    fn fmt(&self, f: &mut fmt::Formatter) -> fmt::Result {
        let verb = match self.epoch {
            0 => "joins".into(),
            -1 => "leaves".into(),
            epoch => format!("at {epoch}"),
        };
        write!(f, "{} {verb}, tick {}", id(&self.id), self.tick)?;
        if self.timeout != -1 {
            write!(f, ", timeout {}", self.timeout)?;
        }
        if let Some(subscription) = self.subscription {
            write!(f, ", subscription {subscription:#06X}")?;
        }
        match &self.owned {
            None => write!(f, ", no list"),
            Some(owned) => write!(f, ", list {owned:?}"),
        }
    }
}

/// The entries as runs of slots with one place: `0-2 to 0, 5 to 1`.
fn places(entries: &[u8]) -> String {
    let mut words = Vec::new();
    let mut from = 0;
    for run in entries.chunk_by(|one, next| one == next) {
        let last = from + run.len() - 1;
        if run[0] != NO_PLACE {
            let slots = if last > from {
                format!("{from}-{last}")
            } else {
                from.to_string()
            };
            words.push(format!("{slots} to {}", run[0]));
        }
        from += run.len();
    }
    if words.is_empty() {
        words.push("nothing".into());
    }
    if entries.len() != SLOTS {
        words.push(format!("of {} entries", entries.len()));
    }
    words.join(", ")
}

impl fmt::Display for Member {
    fn fmt(&self, f: &mut fmt::Formatter) -> fmt::Result {
        let (epoch, timeout, subscription) = (self.epoch, self.timeout, self.subscription);
        let (assigned, revoking) = (&self.assigned, &self.revoking);
        let (heard, revoked_at) = (self.heard, self.revoked_at);
        write!(
            f,
            "{} at {epoch}, A {assigned:?}, P {revoking:?}",
            id(&self.id)
        )?;
        write!(f, ", timeout {timeout}, subscription {subscription:#06X}")?;
        write!(f, ", heard at {heard}, P set at {revoked_at}")
    }
}

impl fmt::Display for Reply {
    fn fmt(&self, f: &mut fmt::Formatter) -> fmt::Result {
        match self.answer {
            Answer::Assignment {
                epoch,
                interval,
                count,
            } => write!(f, "epoch {epoch}, interval {interval}, {count} slots")?,
            Answer::Left => write!(f, "left")?,
            Answer::Swept(removed) => write!(f, "{removed} swept")?,
            Answer::Done => write!(f, "done")?,
            Answer::Refused { number, slot: None } => return write!(f, "refused {number}"),
            Answer::Refused {
                number,
                slot: Some(slot),
            } => return write!(f, "refused {number}, slot {slot}"),
        }
        write!(f, ", {} bytes", self.written)
    }
}
