//! The scenes that are timed: a group, and events that each find it as it is.

use crate::coordinator::{Coordinator, Lent, Outcome, Standing};
use crate::event::{Beat, Event};

pub const TOPICS: u8 = 16;
const PARTITIONS: u32 = 64;
const SLOTS: usize = 1_024;
pub const NOBODY: u8 = 255;
const ALL_TOPICS: u16 = u16::MAX;
const EVEN_TOPICS: u16 = 0x5555;
const REBALANCE_TIMEOUT: i32 = 300_000;
const NOT_GIVEN: i32 = -1;
const JOINS: i32 = 0;
const FENCED: u16 = 110;
const BAD_TARGET: u16 = 1006;

/// The tick at which the group is made and settles.
pub const START: u32 = 1_000;
/// A member heard at `START` and not since is still within its session here,
const LATER: u32 = START + 40_000;
/// and no longer here.
const OVERDUE: u32 = START + 45_000;

/// What a row of the table times.
#[derive(Clone, Copy, PartialEq, Eq)]
pub enum Kind {
    RejoinEmpty,
    RejoinHolding,
    Quiet,
    GivesBack,
    Takes,
    SweepNobody,
    SweepOne,
    Install,
    InstallRefused,
    Refused,
    RangeOfAll,
    RangeOfHalf,
}

impl Kind {
    pub const ALL: [Kind; 12] = [
        Kind::RejoinEmpty,
        Kind::RejoinHolding,
        Kind::Quiet,
        Kind::GivesBack,
        Kind::Takes,
        Kind::SweepNobody,
        Kind::SweepOne,
        Kind::Install,
        Kind::InstallRefused,
        Kind::Refused,
        Kind::RangeOfAll,
        Kind::RangeOfHalf,
    ];

    pub fn name(self) -> &'static str {
        match self {
            Kind::RejoinEmpty => "join again, holding nothing",
            Kind::RejoinHolding => "join again, holding its share",
            Kind::Quiet => "heartbeat that changes nothing",
            Kind::GivesBack => "heartbeat that moves half its slots to giving back",
            Kind::Takes => "heartbeat that takes its share",
            Kind::SweepNobody => "sweep that removes nobody",
            Kind::SweepOne => "sweep that removes one",
            Kind::Install => "install that changes every target",
            Kind::InstallRefused => "install refused (1006), its last slot left over",
            Kind::Refused => "heartbeat refused (110)",
            Kind::RangeOfAll => "range target, everyone subscribed to every topic",
            Kind::RangeOfHalf => "range target, half of the members subscribed to each topic",
        }
    }

    /// Whether the event leaves a group in which it would be another event, so that each call needs
    /// a copy of the group.
    pub fn spends_its_group(self) -> bool {
        match self {
            Kind::RejoinEmpty
            | Kind::Quiet
            | Kind::SweepNobody
            | Kind::InstallRefused
            | Kind::Refused
            | Kind::RangeOfAll
            | Kind::RangeOfHalf => false,
            Kind::RejoinHolding
            | Kind::GivesBack
            | Kind::Takes
            | Kind::SweepOne
            | Kind::Install => true,
        }
    }

    /// Whether the scene is what its name says, by the answer and the bytes of records.
    pub fn is_answered_by(self, outcome: Outcome, written: usize) -> bool {
        match (self, outcome) {
            (Kind::RejoinEmpty | Kind::RejoinHolding, Outcome::Assigned { count, .. }) => {
                count == 0 && written > 0
            }
            (Kind::Quiet, Outcome::Assigned { count, .. }) => count > 0 && written == 0,
            (Kind::GivesBack | Kind::Takes, Outcome::Assigned { count, .. }) => {
                count > 0 && written > 0
            }
            (Kind::SweepNobody, Outcome::Swept(removed)) => removed == 0,
            (Kind::SweepOne, Outcome::Swept(removed)) => removed == 1,
            (Kind::Install, Outcome::Done) => written > 0,
            (Kind::InstallRefused, Outcome::Refused(number)) => number == BAD_TARGET,
            (Kind::Refused, Outcome::Refused(number)) => number == FENCED,
            (Kind::RangeOfAll | Kind::RangeOfHalf, Outcome::Done) => written == 0,
            _ => false,
        }
    }
}

/// The events are taken in turn; there is at least one.
pub struct Scene<C> {
    pub kind: Kind,
    pub group: C,
    pub events: Vec<Event>,
}

impl<C: Coordinator> Scene<C> {
    pub fn new(kind: Kind, members: u8) -> Scene<C> {
        let group = group_for(kind, members);
        let events = events_for(kind, members, &group);
        Scene {
            kind,
            group,
            events,
        }
    }
}

fn group_for<C: Coordinator>(kind: Kind, members: u8) -> C {
    match kind {
        Kind::RejoinEmpty => joined(members),
        Kind::RejoinHolding | Kind::Quiet | Kind::SweepNobody | Kind::Refused => settled(members),
        Kind::GivesBack => retargeted(members),
        Kind::Takes => targeted(members),
        Kind::SweepOne => silent_last(members),
        Kind::Install | Kind::InstallRefused => untargeted(members),
        Kind::RangeOfAll => mixed(members, |_| ALL_TOPICS),
        Kind::RangeOfHalf => mixed(members, |place| match place % 2 {
            0 => EVEN_TOPICS,
            _ => !EVEN_TOPICS,
        }),
    }
}

fn events_for<C: Coordinator>(kind: Kind, members: u8, group: &C) -> Vec<Event> {
    let of_each = |event: fn(u8, Standing) -> Event| {
        let places = 0..members;
        places
            .map(|place| event(place, standing(group, place)))
            .collect()
    };
    match kind {
        Kind::RejoinEmpty | Kind::RejoinHolding => of_each(|place, _| join(place, START)),
        Kind::Quiet | Kind::GivesBack | Kind::Takes => {
            of_each(|place, standing| ordinary(place, standing, START))
        }
        Kind::Refused => of_each(|place, standing| ordinary(place, of_later(standing), START)),
        Kind::SweepNobody => vec![Event::Sweep { tick: LATER }],
        Kind::SweepOne => vec![Event::Sweep { tick: OVERDUE }],
        Kind::Install => vec![install(group, moved_target(members))],
        Kind::InstallRefused => vec![install(group, without_last(moved_target(members)))],
        Kind::RangeOfAll | Kind::RangeOfHalf => vec![Event::RangeTarget],
    }
}

/// Sixteen topics of sixty-four partitions.
fn with_topics<C: Coordinator>() -> C {
    let mut group = C::made(START);
    for number in 0..TOPICS {
        let count = PARTITIONS;
        prepare(&mut group, &Event::Topic { number, count });
    }
    group
}

/// And members that subscribe to all.
fn joined<C: Coordinator>(members: u8) -> C {
    let mut group = with_topics();
    for place in 0..members {
        prepare(&mut group, &join(place, START));
    }
    group
}

/// Or members that subscribe to these, by place, and whose IDs don't rise as the places do. The step
/// from one to the next has no divisor in common with any number of members.
fn mixed<C: Coordinator>(members: u8, topics: fn(u8) -> u16) -> C {
    let mut group = with_topics();
    for place in 0..members {
        let number = u16::from(place) * 37 % u16::from(members);
        let beat = Beat {
            subscription: Some(topics(place)),
            ..joining(number as u8, START)
        };
        prepare(&mut group, &Event::Beat(beat));
    }
    group
}

/// Every member has a target and holds nothing yet.
fn targeted<C: Coordinator>(members: u8) -> C {
    let mut group: C = joined(members);
    let event = install(&group, even_target(members));
    prepare(&mut group, &event);
    group
}

/// Every member holds its target and is at T.
fn settled<C: Coordinator>(members: u8) -> C {
    let mut group: C = targeted(members);
    beat_all(&mut group, members, START);
    group
}

/// As settled, but G is above T, for a member changed its subscription and changed it back. One member
/// alone subscribes to every other topic now, for it has nobody to move slots to.
fn untargeted<C: Coordinator>(members: u8) -> C {
    let mut group: C = settled(members);
    let topics = match members {
        1 => EVEN_TOPICS,
        _ => ALL_TOPICS,
    };
    for subscription in [1, topics] {
        let event = Event::Beat(Beat {
            subscription: Some(subscription),
            ..beat(0, standing(&group, 0), START)
        });
        prepare(&mut group, &event);
    }
    group
}

/// Every member holds what it held in the even target, and the moved one is installed.
fn retargeted<C: Coordinator>(members: u8) -> C {
    let mut group: C = untargeted(members);
    let event = install(&group, moved_target(members));
    prepare(&mut group, &event);
    group
}

/// As settled, and all but the last member were heard again.
fn silent_last<C: Coordinator>(members: u8) -> C {
    let mut group: C = settled(members);
    beat_all(&mut group, members - 1, LATER);
    group
}

fn beat_all<C: Coordinator>(group: &mut C, members: u8, tick: u32) {
    for place in 0..members {
        let event = ordinary(place, standing(group, place), tick);
        prepare(group, &event);
    }
}

fn prepare<C: Coordinator>(group: &mut C, event: &Event) {
    let reply = group.play(event, &mut Lent::new());
    if let Outcome::Refused(number) = C::outcome(reply) {
        panic!("an event that prepares a scene was refused with {number}");
    }
}

pub fn standing<C: Coordinator>(group: &C, place: u8) -> Standing {
    match group.standing(place) {
        Some(standing) => standing,
        None => panic!("nobody is at place {place}"),
    }
}

/// The epoch is one that the member doesn't have.
fn of_later(standing: Standing) -> Standing {
    Standing {
        epoch: standing.epoch + 1,
        ..standing
    }
}

pub fn join(place: u8, tick: u32) -> Event {
    Event::Beat(joining(place, tick))
}

fn joining(place: u8, tick: u32) -> Beat {
    let epoch = JOINS;
    let owned = Vec::new();
    Beat {
        timeout: REBALANCE_TIMEOUT,
        subscription: Some(ALL_TOPICS),
        ..beat(place, Standing { epoch, owned }, tick)
    }
}

pub fn ordinary(place: u8, standing: Standing, tick: u32) -> Event {
    Event::Beat(beat(place, standing, tick))
}

fn beat(place: u8, standing: Standing, tick: u32) -> Beat {
    Beat {
        id: [place + 1; 16],
        epoch: standing.epoch,
        tick,
        timeout: NOT_GIVEN,
        subscription: None,
        owned: standing.owned,
    }
}

pub fn install<C: Coordinator>(group: &C, entries: Vec<u8>) -> Event {
    Event::Install {
        epoch: group.group_epoch(),
        entries,
    }
}

/// Slot by slot to each member in turn.
pub fn even_target(members: u8) -> Vec<u8> {
    let members = usize::from(members);
    (0..SLOTS).map(|slot| (slot % members) as u8).collect()
}

/// Every other slot of a member goes to the next one. Of one member alone every other topic goes to
/// nobody.
pub fn moved_target(members: u8) -> Vec<u8> {
    let turn = |slot: usize| match members {
        1 => slot / PARTITIONS as usize,
        _ => slot / usize::from(members),
    };
    let moved = |(slot, place): (usize, u8)| match turn(slot) % 2 {
        0 => place,
        _ => next(place, members),
    };
    let places = even_target(members).into_iter();
    places.enumerate().map(moved).collect()
}

fn next(place: u8, members: u8) -> u8 {
    match members {
        1 => NOBODY,
        _ => (place + 1) % members,
    }
}

/// The last slot that somebody has is left over.
fn without_last(mut target: Vec<u8>) -> Vec<u8> {
    let owned = target.iter_mut().rev().find(|entry| **entry != NOBODY);
    if let Some(entry) = owned {
        *entry = NOBODY;
    }
    target
}

#[cfg(test)]
mod tests {
    use super::*;

    #[test]
    fn range_targets_give_each_slot_to_a_subscriber_and_not_by_place() {
        for members in [2, 8, 32] {
            let all = Scene::<plain::Group>::new(Kind::RangeOfAll, members);
            let all = all.group.range_target();
            assert!(all.iter().all(|&place| place < members));
            assert!(members == 2 || !all[..64].is_sorted());
            let half = Scene::<plain::Group>::new(Kind::RangeOfHalf, members);
            for (slot, place) in half.group.range_target().into_iter().enumerate() {
                assert_eq!(usize::from(place % 2), slot / 64 % 2);
            }
        }
    }
}
