//! Request 4's range target: judged by its words alone, without making another, and tried by installs.

use crate::coordinator::Coordinator;
use crate::data::{Answer, Event, Id, Member, Turn, NO_PLACE, PARTITIONS, ROOMY, SLOTS, TOPICS};
use crate::reader::Record;
use crate::snapshot::Snapshot;
use crate::trial::{Check, Fault, Trial};

/// Whether the range target may be another after the record, or its install be for another epoch.
pub fn may_change(record: &Record) -> bool {
    match record {
        Record::GroupEpoch(_)
        | Record::Topic { .. }
        | Record::Member { .. }
        | Record::MemberGone { .. } => true,
        Record::TargetEpoch(_)
        | Record::Target { .. }
        | Record::Assignment { .. }
        | Record::AssignmentGone { .. } => false,
    }
}

/// The first slot in which two differ, in words.
pub fn difference(ours: &[u8; SLOTS], theirs: &[u8; SLOTS]) -> Option<String> {
    let slot = (0..SLOTS).find(|&slot| ours[slot] != theirs[slot])?;
    let (ours, theirs) = (ours[slot], theirs[slot]);
    let none = format!("({NO_PLACE}: none)");
    Some(format!(
        "the range target, slot {slot}: {ours} and {theirs} {none}"
    ))
}

/// "The result must always be accepted by an install for the current epoch if T is below G and there
/// is room for the records": on copies, with all the room there is, and if `exact_room` with just enough
/// too; a byte less is 1003. Returns whether T is below G; where an install fails, `turns` has what led
/// to it.
pub fn try_installs<S: Coordinator, R: Coordinator>(
    trial: &Trial<S, R>,
    exact_room: bool,
    turns: &mut Vec<Turn>,
) -> Result<bool, Fault> {
    let (epoch, group) = (trial.reference.epoch(), &trial.reference);
    if group.target_epoch() >= epoch {
        return Ok(false);
    }
    let entries = group.range_target().to_vec();
    let roomy = Turn::roomy(Event::Install { epoch, entries });
    let with = |buffer| Turn {
        buffer,
        ..roomy.clone()
    };
    let needed = install(&mut trial.clone(), with(ROOMY), Answer::Done, turns)?;
    turns.clear();
    if exact_room {
        let mut copy = trial.clone();
        install(&mut copy, with(needed.saturating_sub(1)), NO_ROOM, turns)?;
        install(&mut copy, with(needed), Answer::Done, turns)?;
        turns.clear();
    }
    Ok(true)
}

const NO_ROOM: Answer = Answer::Refused {
    number: 1003,
    slot: None,
};

/// The bytes of records that it stored.
fn install<S: Coordinator, R: Coordinator>(
    copy: &mut Trial<S, R>,
    turn: Turn,
    due: Answer,
    turns: &mut Vec<Turn>,
) -> Result<usize, Fault> {
    turns.push(turn.clone());
    let reply = copy.step(&turn)?.reply;
    match reply.answer == due {
        true => Ok(reply.written),
        false => Err(Fault::new(Check::Range, format!("{turn}: {reply}"))),
    }
}

/// A subscriber of a topic and how many of its partitions it is given. Of two, the one with the lower
/// ID comes first.
struct Share {
    id: Id,
    place: u8,
    size: usize,
}

impl Share {
    fn order(&self) -> (Id, u8) {
        (self.id, self.place)
    }
}

/// What of the words doesn't hold of the entries, of which there are 1,024.
pub fn misfit(entries: &[u8], group: &Snapshot) -> Option<String> {
    let mut topics = (0..TOPICS).zip(entries.chunks(PARTITIONS));
    topics.find_map(|(topic, entries)| {
        let what = misfit_of_topic(topic, entries, group)?;
        Some(format!("the range target, topic {topic}: {what}"))
    })
}

fn misfit_of_topic(topic: u8, entries: &[u8], group: &Snapshot) -> Option<String> {
    let count = group.topic_at(topic.into()).map_or(0, |topic| topic.count);
    let (there, beyond) = entries.split_at(count.into());
    let is_given = |entries: &[u8]| entries.iter().any(|&entry| entry != NO_PLACE);
    if is_given(beyond) {
        return Some("a partition that isn't there is given".into());
    }
    let mut shares = subscribers(topic, group);
    // "With k = 0 none are given."
    if shares.is_empty() {
        return is_given(there).then(|| "given, and nobody subscribes".into());
    }
    // "each a run of neighbours, in order".
    let mut last = None;
    for run in there.chunk_by(|one, next| one == next) {
        let place = run[0];
        let Some(share) = shares.iter_mut().find(|share| share.place == place) else {
            return Some(format!(
                "a partition goes to {place}, which doesn't subscribe"
            ));
        };
        if last >= Some(share.order()) {
            return Some(format!("place {place} comes after a higher ID, or twice"));
        }
        last = Some(share.order());
        share.size = run.len();
    }
    misfit_of_sizes(&shares)
}

/// "in rising order of ID bytes; .. the first n mod k get one more than the rest": of any two, the
/// first has as many as the second, or one more.
fn misfit_of_sizes(shares: &[Share]) -> Option<String> {
    for first in shares {
        let later = shares.iter().filter(|other| first.order() < other.order());
        for second in later {
            if first.size != second.size && first.size != second.size + 1 {
                let sizes = format!("{} and {}", first.size, second.size);
                let places = format!("{} and {}", first.place, second.place);
                return Some(format!("places {places} get {sizes} partitions"));
            }
        }
    }
    None
}

fn subscribers(topic: u8, group: &Snapshot) -> Vec<Share> {
    let members = group.members.iter();
    let subscribed = members.filter(|(_, member)| member.subscribes_to(topic));
    let share = |(place, member): &(u8, Member)| Share {
        id: member.id,
        place: *place,
        size: 0,
    };
    subscribed.map(share).collect()
}
