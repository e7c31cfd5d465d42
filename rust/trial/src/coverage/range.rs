//! Request 4: what range targets there were, and whether one came into force.

use super::Situation::{self, *};
use crate::data::{Event, Turn, NO_PLACE, PARTITIONS};
use crate::snapshot::Snapshot;
use crate::trial::Step;

/// Of an accepted event.
pub fn is_reached(situation: Situation, turn: &Turn, step: &Step) -> bool {
    let entries = &step.range[..];
    let mut topics = entries.chunks(PARTITIONS).map(given);
    if situation == RangeInForce {
        let is_given = topics.any(|topic| !topic.is_empty());
        return is_given && is_install_of(entries, &turn.event);
    }
    step.range_is_new
        && match situation {
            RangeUneven => topics.any(is_uneven),
            RangeNotByPlace => topics.any(|topic| !topic.is_sorted()),
            RangeFewer => has_fewer(step.after),
            RangeUnwanted => {
                let mut known = step.after.topics.iter();
                known.any(|(number, _)| entries[usize::from(*number) * PARTITIONS] == NO_PLACE)
            }
            _ => false,
        }
}

fn is_install_of(range: &[u8], event: &Event) -> bool {
    matches!(event, Event::Install { entries, .. } if entries == range)
}

/// What is given of a topic.
fn given(topic: &[u8]) -> &[u8] {
    let end = topic.iter().position(|&entry| entry == NO_PLACE);
    &topic[..end.unwrap_or(topic.len())]
}

fn is_uneven(topic: &[u8]) -> bool {
    let runs = topic.chunk_by(|one, next| one == next);
    !runs.map(<[u8]>::len).is_sorted_by(|one, next| one == next)
}

fn has_fewer(group: &Snapshot) -> bool {
    group.topics.iter().any(|(number, topic)| {
        let members = group.members.iter();
        let subscribers = members.filter(|(_, member)| member.subscribes_to(*number));
        subscribers.count() > topic.count.into()
    })
}
