//! Request 3: slots that an install leaves over, and holes that come into a target later. A slot is
//! wanted where it exists and some member subscribes to its topic.

use super::Situation::{self, *};
use crate::data::{Event, Turn, NO_PLACE, PARTITIONS, SLOTS};
use crate::reasons::{bad_entries, Reason, Row};
use crate::trial::Step;

/// Of an accepted event.
pub fn is_reached(situation: Situation, turn: &Turn, step: &Step) -> bool {
    match situation {
        UnwantedLeft => leaves_slots(turn, step),
        HoleByTopic | HoleBySweep | HoleByLeave | HoleBySubscription => {
            was_current(step) && is_by(situation, turn) && makes_hole(step)
        }
        HoleByTopicLater | HoleBySweepLater | HoleByLeaveLater | HoleBySubscriptionLater => {
            !was_current(step) && is_by(situation, turn) && makes_hole(step)
        }
        HoleInForce => was_current(step) && is_current(step) && makes_hole(step),
        _ => false,
    }
}

/// Of a refused one: which slot of an install was reported, and what was wrong with later ones.
pub fn is_reached_by_refusal(situation: Situation, turn: &Turn, step: &Step) -> bool {
    let Event::Install { entries, .. } = &turn.event else {
        return false;
    };
    if step.earned.due.map(Reason::row) != Some(Row::TargetEntry) {
        return false;
    }
    let mut bad = bad_entries(entries, step.before);
    let first = bad.next();
    let is_left = first.is_some_and(|why| why.reason == Reason::LeftOver);
    match situation {
        LeftOverBeforeOther => is_left && bad.any(|why| why.reason != Reason::LeftOver),
        OtherBeforeLeftOver => !is_left && bad.any(|why| why.reason == Reason::LeftOver),
        _ => is_left && is_at(situation, first.and_then(|why| why.slot), step),
    }
}

/// Where the slot stands among the wanted ones, of which there are three or more.
fn is_at(situation: Situation, slot: Option<u16>, step: &Step) -> bool {
    let wanted: Vec<u16> = step.before.wanted().collect();
    let [first, .., last] = wanted[..] else {
        return false;
    };
    let (is_first, is_last) = (slot == Some(first), slot == Some(last));
    match situation {
        _ if wanted.len() < 3 => false,
        LeftOverFirst => is_first,
        LeftOverBetween => !is_first && !is_last,
        LeftOverLast => is_last,
        LeftOverAtEnd => slot == Some(SLOTS as u16 - 1),
        _ => false,
    }
}

/// Whether an accepted install leaves slots that exist: all of a topic, then.
fn leaves_slots(turn: &Turn, step: &Step) -> bool {
    let Event::Install { entries, .. } = &turn.event else {
        return false;
    };
    let mut topics = step.before.topics.iter();
    topics.any(|(number, _)| entries[usize::from(*number) * PARTITIONS] == NO_PLACE)
}

fn was_current(step: &Step) -> bool {
    step.before.target_epoch == step.before.epoch
}

fn is_current(step: &Step) -> bool {
    step.after.target_epoch == step.after.epoch
}

fn is_by(situation: Situation, turn: &Turn) -> bool {
    match (situation, &turn.event) {
        (HoleByTopic | HoleByTopicLater, Event::Topic { .. }) => true,
        (HoleBySweep | HoleBySweepLater, Event::Sweep { .. }) => true,
        (HoleByLeave | HoleByLeaveLater, Event::Heartbeat(beat)) => beat.epoch == -1,
        (HoleBySubscription | HoleBySubscriptionLater, Event::Heartbeat(beat)) => beat.epoch > 0,
        _ => false,
    }
}

/// Whether a slot is wanted and has no owner in the target that was not so before. An event that
/// stores nothing leaves topics, subscriptions and targets alone.
fn makes_hole(step: &Step) -> bool {
    let holes = || {
        let known = step.before.holes();
        let holes = step.after.holes();
        holes.iter().any(|slot| !known.contains(slot))
    };
    step.reply.written > 0 && holes()
}
