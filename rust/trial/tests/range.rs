//! Every number of partitions over every number of subscribers, of which random events meet few: the
//! range targets are compared, held against the words and installed.

use std::collections::HashSet;

use trial::data::{Beat, Event, Id, Start, Turn, PARTITIONS, PLACES, TOPICS};
use trial::generate::new_id;
use trial::random::Random;
use trial::range::try_installs;
use trial::sides::{Proved, Reference, Tuned};
use trial::trial::Trial;
use trial::Coordinator;

const TOPIC_ID: Id = [0x11; 16];

fn step<S: Coordinator>(sides: &mut Trial<S, Reference>, event: Event) {
    match sides.step(&Turn::roomy(event)) {
        Ok(step) => assert!(!step.reply.answer.is_refusal() && step.range_is_new),
        Err(fault) => panic!("{fault}"),
    }
}

fn join(id: Id, topics: u16) -> Event {
    Event::Heartbeat(Beat {
        id,
        epoch: 0,
        tick: 0,
        timeout: 300,
        subscription: Some(topics),
        owned: Some(Vec::new()),
    })
}

/// So many different ones, in no order.
fn ids(count: usize, random: &mut Random) -> Vec<Id> {
    let mut ids = HashSet::new();
    while ids.len() < count {
        ids.insert(new_id(random));
    }
    let mut ids: Vec<Id> = ids.into_iter().collect();
    ids.sort();
    random.shuffle(&mut ids);
    ids
}

/// A full group. Those who don't subscribe to the topic subscribe to all others, and sit anywhere.
fn every_number_of_partitions<S: Coordinator>(topic: u8, subscribers: usize, random: &mut Random) {
    let mut sides = Trial::<S, Reference>::new(Start::Fresh { tick: 0 });
    let mut subscribes: Vec<bool> = (0..usize::from(PLACES))
        .map(|at| at < subscribers)
        .collect();
    random.shuffle(&mut subscribes);
    let ids = ids(subscribes.len(), random);
    for (id, subscribes) in ids.into_iter().zip(subscribes) {
        let own = 1 << topic;
        step(&mut sides, join(id, if subscribes { own } else { !own }));
    }
    for count in 1..=PARTITIONS as u32 {
        let (number, id) = (topic.into(), TOPIC_ID);
        step(&mut sides, Event::Topic { number, id, count });
        let tried = try_installs(&sides, true, &mut Vec::new());
        assert_eq!(tried, Ok(true), "{count} over {subscribers}");
    }
}

fn every_number_of_subscribers<S: Coordinator>() {
    let mut random = Random::new(4);
    for subscribers in 0..=PLACES {
        let topic = subscribers % TOPICS;
        every_number_of_partitions::<S>(topic, subscribers.into(), &mut random);
    }
}

#[test]
fn every_number_of_partitions_over_every_number_of_subscribers() {
    every_number_of_subscribers::<Proved>();
}

#[test]
fn the_same_in_the_tuned_one() {
    every_number_of_subscribers::<Tuned>();
}
