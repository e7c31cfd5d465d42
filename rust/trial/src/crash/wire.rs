//! What goes over the pipes: an event to the broker and an answer from it, a line each.

use std::collections::hash_map::DefaultHasher;
use std::hash::{Hash, Hasher};

use crate::coordinator::Coordinator;
use crate::data::{Answer, Beat, Event, Id};
use crate::snapshot::Snapshot;

/// An event, and the length of the list that it is lent.
pub struct Asked {
    pub event: Event,
    pub list: usize,
}

const NOT_GIVEN: &str = "-";

impl Asked {
    pub fn line(&self) -> String {
        let list = self.list;
        match &self.event {
            Event::Heartbeat(beat) => {
                let Beat {
                    id,
                    epoch,
                    tick,
                    timeout,
                    ..
                } = beat;
                let subscription = given(beat.subscription.map(|set| set.to_string()));
                let owned = given(beat.owned.as_deref().map(numbers));
                let id = hex(id);
                format!("beat {id} {epoch} {tick} {timeout} {subscription} {owned} {list}\n")
            }
            Event::Sweep { tick } => format!("sweep {tick}\n"),
            Event::Topic { number, id, count } => format!("topic {number} {} {count}\n", hex(id)),
            Event::Install { epoch, entries } => format!("install {epoch} .{}\n", hex(entries)),
        }
    }

    pub fn of(line: &str) -> Option<Asked> {
        let words: Vec<&str> = line.split_whitespace().collect();
        let (event, list) = match words[..] {
            ["beat", id, epoch, tick, timeout, subscription, owned, list] => {
                let beat = Beat {
                    id: id_of(id)?,
                    epoch: epoch.parse().ok()?,
                    tick: tick.parse().ok()?,
                    timeout: timeout.parse().ok()?,
                    subscription: if_given(subscription, |set| set.parse().ok())?,
                    owned: if_given(owned, numbers_of)?,
                };
                (Event::Heartbeat(beat), list.parse().ok()?)
            }
            ["sweep", tick] => {
                let tick = tick.parse().ok()?;
                (Event::Sweep { tick }, 0)
            }
            ["topic", number, id, count] => {
                let (number, count) = (number.parse().ok()?, count.parse().ok()?);
                let id = id_of(id)?;
                (Event::Topic { number, id, count }, 0)
            }
            ["install", epoch, entries] => {
                let epoch = epoch.parse().ok()?;
                let entries = bytes_of(entries.strip_prefix('.')?)?;
                (Event::Install { epoch, entries }, 0)
            }
            _ => return None,
        };
        Some(Asked { event, list })
    }
}

/// An answer and the slots that it tells.
pub fn answer(answer: Answer, told: &[u16]) -> String {
    format!("{answer:?} {told:?}\n")
}

/// What a broker says first: where its journal ends, and which group it has.
pub fn opened<C: Coordinator>(end: u64, group: &C) -> String {
    let mut hasher = DefaultHasher::new();
    format!("{:?}", Snapshot::of(group)).hash(&mut hasher);
    format!("open {end} {:016x}\n", hasher.finish())
}

fn given(word: Option<String>) -> String {
    word.unwrap_or_else(|| NOT_GIVEN.into())
}

/// None: no such word; Some(None): not given.
fn if_given<T>(word: &str, read: impl FnOnce(&str) -> Option<T>) -> Option<Option<T>> {
    match word {
        NOT_GIVEN => Some(None),
        word => read(word).map(Some),
    }
}

/// The list is never the empty word.
fn numbers(list: &[u16]) -> String {
    let words: Vec<String> = list.iter().map(u16::to_string).collect();
    format!(".{}", words.join(","))
}

fn numbers_of(word: &str) -> Option<Vec<u16>> {
    match word.strip_prefix('.')? {
        "" => Some(Vec::new()),
        list => list.split(',').map(|word| word.parse().ok()).collect(),
    }
}

fn hex(bytes: &[u8]) -> String {
    bytes.iter().map(|byte| format!("{byte:02X}")).collect()
}

fn bytes_of(word: &str) -> Option<Vec<u8>> {
    let pairs = word.as_bytes().chunks(2);
    let pair = |pair| u8::from_str_radix(std::str::from_utf8(pair).ok()?, 16).ok();
    pairs.map(pair).collect()
}

fn id_of(word: &str) -> Option<Id> {
    bytes_of(word)?.try_into().ok()
}

#[cfg(test)]
mod tests {
    use super::*;
    use crate::generate::{World, PROFILES};
    use crate::random::Random;
    use crate::sides::Reference;

    #[test]
    fn events_are_read_back() {
        for (index, profile) in PROFILES.iter().enumerate() {
            let mut world = World::new(profile, Random::new(index as u64));
            let mut group = Reference::start(world.start());
            for _ in 0..200 {
                let turn = world.next(&group);
                let list = match turn.event {
                    Event::Heartbeat(_) => turn.list,
                    _ => 0,
                };
                let asked = Asked {
                    event: turn.event,
                    list,
                };
                let read = Asked::of(&asked.line()).expect("an event");
                assert_eq!((&read.event, read.list), (&asked.event, list));
                group.serve(&asked.event, &mut [0; 4_096], &mut [0; 1_024]);
            }
        }
    }
}
