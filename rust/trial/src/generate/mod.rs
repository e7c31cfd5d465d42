//! Events for a run, made one at a time: a world of clients, an assignor, a broker's clock and
//! hostile clients. It looks at one coordinator's group, and never into the other's.

mod assignor;
mod client;
mod hostile;
mod ids;
mod profile;
mod ticks;
mod topics;

pub use ids::new as new_id;
pub use profile::{Profile, PROFILES, SMALL_PROFILES};

use crate::coordinator::Coordinator;
use crate::data::{Beat, Event, Id, Member, Reply, Start, Turn, PLACES, ROOMY, SLOTS};
use crate::random::Random;
use crate::reasons::need;
use client::Client;
use profile::Beginning;

pub struct World {
    random: Random,
    profile: &'static Profile,
    clients: Vec<Client>,
    topic_ids: Vec<Id>,
    /// Whether the assignor leaves slots over.
    leaves_slots: bool,
    /// The client whose heartbeat was made last, if its answer will reach it.
    awaits_answer: Option<usize>,
    /// Answers to honest heartbeats that got lost so far.
    pub lost_answers: u64,
}

impl World {
    pub fn new(profile: &'static Profile, mut random: Random) -> World {
        let (fewest, most) = profile.clients;
        let count = random.between(fewest, most);
        let clients = (0..count)
            .map(|_| Client::new(&mut random, profile))
            .collect();
        let topic_ids = (0..profile.topics).map(|_| ids::new(&mut random)).collect();
        World {
            random,
            profile,
            clients,
            topic_ids,
            leaves_slots: false,
            awaits_answer: None,
            lost_answers: 0,
        }
    }

    /// The same world before request 3, when an assignor could leave slots over.
    pub fn before_request_3(self) -> World {
        World {
            leaves_slots: true,
            ..self
        }
    }

    pub fn start(&mut self) -> Start {
        let random = &mut self.random;
        let near_run_over = u32::MAX - random.below(100_000) as u32;
        let anywhere = random.next() as u32;
        let tick = random.pick(&[0, 1_000, near_run_over, anywhere]);
        match self.profile.beginning {
            Beginning::Fresh => Start::Fresh { tick },
            Beginning::NearRunOver => Start::Fresh {
                tick: near_run_over,
            },
            Beginning::NearEnd(fewest, most) => {
                let epoch = i32::MAX - random.between(fewest, most) as i32;
                let target_epoch = random.pick(&[0, 1, epoch - 1, epoch]);
                Start::AtEpochs {
                    tick,
                    epoch,
                    target_epoch,
                }
            }
        }
    }

    pub fn length(&mut self) -> usize {
        let (shortest, longest) = self.profile.events;
        self.random.between(shortest, longest)
    }

    /// The seed of three rounds, at times.
    pub fn rounds(&mut self) -> Option<u64> {
        let now = self.random.chance(1, self.profile.events_per_rounds);
        now.then(|| self.random.next())
    }

    /// Whether the install of a new range target is to be tried with just enough room too.
    pub fn tries_exact_room(&mut self) -> bool {
        self.random.chance(1, 8)
    }

    pub fn next<C: Coordinator>(&mut self, group: &C) -> Turn {
        let event = self.event(group);
        let (buffer, list) = self.room(&event, group);
        Turn {
            event,
            buffer,
            list,
            fill: self.random.next() as u8,
        }
    }

    /// Lets the sender of an honest heartbeat know its answer.
    pub fn learn(&mut self, turn: &Turn, reply: Reply, slots: &[u16]) {
        if let (Some(sender), Event::Heartbeat(beat)) = (self.awaits_answer, &turn.event) {
            self.clients[sender].learn(beat, reply.answer, slots, &mut self.random);
        }
    }

    fn event<C: Coordinator>(&mut self, group: &C) -> Event {
        self.awaits_answer = None;
        match self.random.weighted(&self.profile.weights) {
            0 => Event::Heartbeat(self.honest(group)),
            1 => Event::Heartbeat(self.hostile(group)),
            2 => self.sweep(group),
            3 => self.topic(group),
            4 => self.bad_topic(group),
            // The assignor has nothing to do where the target is there already.
            5 if group.epoch() == group.target_epoch() && self.random.chance(9, 10) => {
                Event::Heartbeat(self.honest(group))
            }
            5 => self.install(group),
            _ => self.bad_install(group),
        }
    }

    fn honest<C: Coordinator>(&mut self, group: &C) -> Beat {
        let tick = self.tick(group);
        let sender = self.random.below(self.clients.len());
        if self.random.chance(self.profile.lost_per_100, 100) {
            self.lost_answers += 1;
        } else {
            self.awaits_answer = Some(sender);
        }
        self.clients[sender].beat(tick, &mut self.random, self.profile)
    }

    /// Lengths to lend: ample, around the exact ones, or scant.
    fn room<C: Coordinator>(&mut self, event: &Event, group: &C) -> (usize, usize) {
        let (around, scant) = self.profile.room_per_100;
        let draw = self.random.below(100);
        if draw < around {
            let (bytes, slots) = need(event, group).unwrap_or((20, 5));
            return (self.around(bytes), self.around(slots));
        }
        if draw < around + scant {
            let (buffer, list) = (self.random.below(48), self.random.below(8));
            return (self.random.pick(&[0, buffer]), self.random.pick(&[0, list]));
        }
        self.random
            .pick(&[(ROOMY, SLOTS), (ROOMY, SLOTS), (ROOMY + 999, SLOTS + 99)])
    }

    fn around(&mut self, exact: usize) -> usize {
        match self.random.below(12) {
            0 => exact.saturating_sub(1),
            1 => self.random.below(exact + 1),
            2 => exact + 1,
            3 => exact + self.random.below(20),
            _ => exact,
        }
    }

    /// Some member of the group, and its place.
    fn some_member<C: Coordinator>(&mut self, group: &C) -> Option<(u8, Member)> {
        let first = self.random.below(PLACES.into()) as u8;
        (0..PLACES)
            .map(|step| (first + step) % PLACES)
            .find_map(|place| group.member_at(place).map(|member| (place, member)))
    }
}
