//! Repairing a run from which events were cut. Cutting a join shifts every epoch after it; so an
//! event that named its member's epoch, the group's epoch, a member's place or the exact room
//! before is changed to do so again, and a slot that had a right owner, or rightly none, has so again.
//! A run that begins near the end of the epochs may begin nearer.

use std::ops::Range;

use crate::coordinator::Coordinator;
use crate::data::{
    Beat, Event, Id, Member, Run, Start, Turn, NO_PLACE, PARTITIONS, PLACES, ROOMY, SLOTS,
};
use crate::panics::caught;
use crate::reasons::{bad_entries, need, of_entry};
use crate::snapshot::Snapshot;

/// What an event stood in relation to when it was made.
struct Relation {
    /// To its member's epoch, or an install to the group's.
    epoch: Option<i64>,
    /// Who was at each place.
    names: Vec<Option<Id>>,
    /// The slots of an install that were bad.
    bad: Vec<u16>,
    /// Whether its member held all that it listed.
    listed_held: bool,
    /// To the exact room.
    room: Option<(i64, i64)>,
    /// To the last tick.
    ahead: u32,
}

/// The rest of a run, repaired, from perhaps another start; and how much lower G is at its end.
pub fn repaired_without<R: Coordinator>(
    run: &Run,
    piece: Range<usize>,
    start: Start,
) -> (Run, i32) {
    let mut then = R::start(run.start);
    let mut now = R::start(start);
    let mut turns = Vec::new();
    for (at, turn) in run.turns.iter().enumerate() {
        if !piece.contains(&at) {
            let repaired = repair(turn, &relation(turn, &then), &now);
            serve(&mut now, &repaired);
            turns.push(repaired);
        }
        serve(&mut then, turn);
    }
    let rounds = run.rounds;
    let rest = Run {
        start,
        turns,
        rounds,
    };
    (rest, then.epoch().saturating_sub(now.epoch()))
}

/// A start that makes up for what G lost; None where there is no such.
pub fn begun_later(start: Start, lost: i32) -> Option<Start> {
    match start {
        Start::AtEpochs {
            tick,
            epoch,
            target_epoch,
        } if lost > 0 => Some(Start::AtEpochs {
            tick,
            epoch: epoch.checked_add(lost)?,
            target_epoch,
        }),
        _ => None,
    }
}

fn serve<C: Coordinator>(group: &mut C, turn: &Turn) {
    let (mut records, mut list) = (vec![0; turn.buffer], vec![0; turn.list]);
    // Where it panics, the repaired run does too, when it is played.
    let _ = caught(|| group.serve(&turn.event, &mut records, &mut list));
}

fn relation<C: Coordinator>(turn: &Turn, then: &C) -> Relation {
    let exact = need(&turn.event, then);
    let mut relation = Relation {
        epoch: None,
        names: Vec::new(),
        bad: Vec::new(),
        listed_held: false,
        ahead: tick(&turn.event).map_or(0, |tick| tick.wrapping_sub(then.last_tick())),
        room: exact.map(|(bytes, slots)| {
            (
                turn.buffer as i64 - bytes as i64,
                turn.list as i64 - slots as i64,
            )
        }),
    };
    match &turn.event {
        Event::Heartbeat(beat) if beat.epoch > 0 => {
            if let Some(member) = member(then, &beat.id) {
                let mut list = beat.owned.iter().flatten();
                relation.epoch = Some(i64::from(beat.epoch) - i64::from(member.epoch));
                relation.listed_held = list.all(|&slot| member.holds(slot));
            }
        }
        Event::Install { epoch, entries } => {
            relation.epoch = Some(i64::from(*epoch) - i64::from(then.epoch()));
            relation.names = names(then);
            let group = Snapshot::of(then);
            let bad = bad_entries(entries, &group).filter_map(|why| why.slot);
            relation.bad = bad.collect();
        }
        _ => {}
    }
    relation
}

fn tick(event: &Event) -> Option<u32> {
    match event {
        Event::Heartbeat(beat) => Some(beat.tick),
        Event::Sweep { tick } => Some(*tick),
        _ => None,
    }
}

fn repair<C: Coordinator>(turn: &Turn, relation: &Relation, now: &C) -> Turn {
    let mut repaired = turn.clone();
    repair_tick(&mut repaired.event, relation, now);
    match &mut repaired.event {
        Event::Heartbeat(beat) => repair_beat(beat, relation, now),
        Event::Install { epoch, entries } => {
            let offset = relation.epoch.unwrap_or(0);
            *epoch = (i64::from(now.epoch()) + offset) as i32;
            repair_places(entries, &relation.names, &names(now));
            repair_owners(entries, &relation.bad, &Snapshot::of(now));
        }
        _ => {}
    }
    if let (Some((bytes_over, slots_over)), Some((bytes, slots))) =
        (relation.room, need(&repaired.event, now))
    {
        // Where there was all the room, there is again.
        if repaired.buffer < ROOMY {
            repaired.buffer = (bytes as i64 + bytes_over).clamp(0, ROOMY as i64) as usize;
        }
        if repaired.list < SLOTS {
            repaired.list = (slots as i64 + slots_over).clamp(0, SLOTS as i64) as usize;
        }
    }
    repaired
}

/// Only a tick that has come to lie too far ahead is changed, for elapsed times should stay.
fn repair_tick<C: Coordinator>(event: &mut Event, relation: &Relation, now: &C) {
    let (Event::Heartbeat(Beat { tick, .. }) | Event::Sweep { tick }) = event else {
        return;
    };
    let is_too_far = |ahead: u32| ahead >= 1 << 31;
    if is_too_far(tick.wrapping_sub(now.last_tick())) && !is_too_far(relation.ahead) {
        *tick = now.last_tick().wrapping_add(relation.ahead);
    }
}

fn repair_beat<C: Coordinator>(beat: &mut Beat, relation: &Relation, now: &C) {
    let (Some(offset), Some(member)) = (relation.epoch, member(now, &beat.id)) else {
        return;
    };
    beat.epoch = (i64::from(member.epoch) + offset) as i32;
    if let (true, Some(owned)) = (relation.listed_held, &mut beat.owned) {
        owned.retain(|&slot| member.holds(slot));
    }
}

/// Who is at each place.
fn names<C: Coordinator>(group: &C) -> Vec<Option<Id>> {
    let places = 0..PLACES;
    places
        .map(|place| group.member_at(place).map(|member| member.id))
        .collect()
}

/// Each slot goes to the member who was at its place then, wherever it is now.
fn repair_places(entries: &mut [u8], then: &[Option<Id>], now: &[Option<Id>]) {
    for entry in entries {
        if let Some(name @ Some(_)) = then.get(usize::from(*entry)) {
            let place = now.iter().position(|other| other == name);
            *entry = place.map_or(NO_PLACE, |place| place as u8);
        }
    }
}

/// A slot that was not bad then and is now goes to its first subscriber, or to nobody if it may.
fn repair_owners(entries: &mut [u8], bad: &[u16], now: &Snapshot) {
    for (slot, entry) in entries.iter_mut().take(SLOTS).enumerate() {
        if bad.contains(&(slot as u16)) || of_entry(slot, *entry, now).is_none() {
            continue;
        }
        let topic = (slot / PARTITIONS) as u8;
        let mut members = now.members.iter();
        let subscriber = members.find(|(_, member)| member.subscribes_to(topic));
        let may_be_left = of_entry(slot, NO_PLACE, now).is_none();
        *entry = match subscriber {
            Some((place, _)) if !may_be_left => *place,
            _ => NO_PLACE,
        };
    }
}

fn member<C: Coordinator>(group: &C, id: &Id) -> Option<Member> {
    let mut members = (0..PLACES).filter_map(|place| group.member_at(place));
    members.find(|member| member.id == *id)
}
