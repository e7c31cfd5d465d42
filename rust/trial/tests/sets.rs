//! Sets of every size and of many shapes, and every free place: what is counted by ones and found by
//! trailing zeros, at the ends of words and between them. Random events meet few of these.

use trial::data::{Answer, Beat, Event, Id, Start, Turn, PARTITIONS, PLACES, SLOTS, TOPICS};
use trial::sides::{Proved, Reference};
use trial::trial::Trial;
use trial::Coordinator;

type Sides = Trial<Proved, Reference>;

const TICK: u32 = 1_000;
const NO_ROOM: u16 = 1_003;
const FULL: u16 = 81;

fn id(number: u8) -> Id {
    [number; 16]
}

fn beat(number: u8, epoch: i32) -> Beat {
    Beat {
        id: id(number),
        epoch,
        tick: TICK,
        timeout: -1,
        subscription: None,
        owned: Some(Vec::new()),
    }
}

fn join(number: u8) -> Turn {
    Turn::roomy(Event::Heartbeat(Beat {
        timeout: 300_000,
        subscription: Some(u16::MAX),
        ..beat(number, 0)
    }))
}

fn leave(number: u8) -> Turn {
    Turn::roomy(Event::Heartbeat(beat(number, -1)))
}

fn step(sides: &mut Sides, turn: &Turn) -> Answer {
    match sides.step(turn) {
        Ok(step) => step.reply.answer,
        Err(fault) => panic!("{fault} at {turn:?}"),
    }
}

/// Sixteen topics of sixty-four partitions and so many members, each at the place below its number.
fn group_of(members: u8) -> Sides {
    let mut sides = Sides::new(Start::Fresh { tick: TICK });
    for number in 0..TOPICS {
        step(
            &mut sides,
            &Turn::roomy(Event::Topic {
                number: number.into(),
                id: id(number + 1),
                count: PARTITIONS as u32,
            }),
        );
    }
    for number in 1..=members {
        step(&mut sides, &join(number));
    }
    sides
}

fn refused(number: u16) -> Answer {
    Answer::Refused { number, slot: None }
}

/// The first of two members joins again, has this target and takes it: with a byte of records too few,
/// with an entry of the list too few, and with just what is needed. The other has all the rest for its
/// target.
fn take(sides: &mut Sides, set: &[u16]) {
    step(sides, &join(1));
    let mut entries = vec![1; SLOTS];
    for &slot in set {
        entries[usize::from(slot)] = 0;
    }
    let epoch = sides.subject.epoch();
    let installed = step(sides, &Turn::roomy(Event::Install { epoch, entries }));
    assert_eq!(installed, Answer::Done);

    let beat = beat(1, epoch);
    let (mut records, mut list) = ([0; 4_096], [0; SLOTS]);
    let mut asked = sides.reference.clone();
    let reply = Coordinator::heartbeat(&mut asked, &beat, &mut records, &mut list);
    assert_eq!(reply.answer.told(), set.len());
    let exact = Turn {
        event: Event::Heartbeat(beat),
        buffer: reply.written,
        list: set.len(),
        fill: 165,
    };
    if let Some(buffer) = exact.buffer.checked_sub(1) {
        let short = Turn {
            buffer,
            ..exact.clone()
        };
        assert_eq!(step(sides, &short), refused(NO_ROOM), "{set:?}");
    }
    if let Some(list) = exact.list.checked_sub(1) {
        let short = Turn {
            list,
            ..exact.clone()
        };
        assert_eq!(step(sides, &short), refused(NO_ROOM), "{set:?}");
    }
    assert_eq!(step(sides, &exact).told(), set.len());
}

fn take_each(sets: impl Iterator<Item = Vec<u16>>) {
    let mut sides = group_of(2);
    for set in sets {
        take(&mut sides, &set);
    }
}

#[test]
fn every_number_of_slots_from_either_end() {
    let slots = SLOTS as u16;
    let lowest = (0..=slots).map(|size| (0..size).collect());
    let highest = (0..=slots).map(move |size| (slots - size..slots).collect());
    take_each(lowest.chain(highest));
}

#[test]
fn every_slot_alone() {
    take_each((0..SLOTS as u16).map(|slot| vec![slot]));
}

/// A difference takes two bytes from 128 on.
#[test]
fn slots_at_every_distance_about_words_and_bytes() {
    let distances = [
        1, 2, 62, 63, 64, 65, 126, 127, 128, 129, 191, 192, 193, 1_023,
    ];
    let firsts = [
        0, 1, 62, 63, 64, 65, 127, 128, 300, 894, 895, 896, 960, 1_022,
    ];
    let pairs = firsts
        .into_iter()
        .flat_map(|first| distances.map(|by| vec![first, first + by]));
    let steps = distances.map(|by| (0..SLOTS as u16).step_by(by.into()).collect());
    let inside = pairs.filter(|pair| usize::from(pair[1]) < SLOTS);
    take_each(inside.chain(steps));
}

/// The number of the member at a place.
fn at(sides: &Sides, place: u8) -> Option<u8> {
    sides.subject.member_at(place).map(|member| member.id[0])
}

#[test]
fn the_lowest_free_place_is_taken_wherever_two_are_free() {
    let mut sides = group_of(PLACES);
    let newcomer = PLACES + 1;
    assert_eq!(step(&mut sides, &join(newcomer)), refused(FULL));
    for low in 0..PLACES {
        for high in low + 1..PLACES {
            for place in [high, low] {
                assert_eq!(step(&mut sides, &leave(place + 1)), Answer::Left);
                assert_eq!(at(&sides, place), None);
            }
            for place in [low, high] {
                step(&mut sides, &join(place + 1));
                assert_eq!(at(&sides, place), Some(place + 1));
            }
            assert_eq!(step(&mut sides, &join(newcomer)), refused(FULL));
        }
    }
}

#[test]
fn every_free_place_is_the_lowest_once() {
    let mut sides = group_of(PLACES);
    for number in (1..=PLACES).rev() {
        step(&mut sides, &leave(number));
    }
    for place in 0..PLACES {
        step(&mut sides, &join(place + 1));
        assert_eq!(at(&sides, place), Some(place + 1));
    }
}
