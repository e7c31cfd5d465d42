//! An honest client. It keeps what a real one keeps: its epoch, the slots of its last answer and
//! the slots it still works on, which it gives back in its own time.

use super::ids;
use super::profile::Profile;
use crate::data::{Answer, Beat, Id};
use crate::random::Random;

const TIMEOUTS: [i32; 6] = [1, 50, 300, 5_000, 60_000, 1_800_000];

pub struct Client {
    id: Id,
    /// 0 while it is no member.
    epoch: i32,
    timeout: i32,
    subscription: u16,
    told: Vec<u16>,
    working_on: Vec<u16>,
}

impl Client {
    pub fn new(random: &mut Random, profile: &Profile) -> Client {
        Client {
            id: ids::new(random),
            epoch: 0,
            timeout: random.pick(&TIMEOUTS),
            subscription: some_topics(random, profile),
            told: Vec::new(),
            working_on: Vec::new(),
        }
    }

    pub fn id(&self) -> Id {
        self.id
    }

    pub fn beat(&mut self, tick: u32, random: &mut Random, profile: &Profile) -> Beat {
        if self.epoch == 0 {
            return self.join(tick);
        }
        let mut beat = Beat {
            id: self.id,
            epoch: self.epoch,
            tick,
            timeout: -1,
            subscription: None,
            owned: None,
        };
        if random.chance(profile.leaves_per_100, 100) {
            beat.epoch = -1;
            return beat;
        }
        if random.chance(4, 100) {
            self.timeout = random.pick(&TIMEOUTS);
        }
        if random.chance(4, 100) {
            self.subscription = some_topics(random, profile);
        }
        if random.chance(12, 100) {
            beat.timeout = self.timeout;
            beat.subscription = Some(self.subscription);
        }
        self.work(random);
        beat.owned = random.chance(60, 100).then(|| self.working_on.clone());
        beat
    }

    fn join(&self, tick: u32) -> Beat {
        Beat {
            id: self.id,
            epoch: 0,
            tick,
            timeout: self.timeout,
            subscription: Some(self.subscription),
            owned: Some(Vec::new()),
        }
    }

    /// Takes up what it was told, and gives back some or all of what it was not told again.
    fn work(&mut self, random: &mut Random) {
        let gives_all = random.chance(1, 2);
        let told = &self.told;
        self.working_on
            .retain(|slot| told.binary_search(slot).is_ok() || !(gives_all || random.chance(1, 2)));
        self.working_on.extend_from_slice(told);
        self.working_on.sort_unstable();
        self.working_on.dedup();
    }

    pub fn learn(&mut self, beat: &Beat, answer: Answer, slots: &[u16], random: &mut Random) {
        match answer {
            Answer::Assignment { epoch, .. } => {
                if beat.epoch == 0 {
                    self.working_on.clear();
                }
                self.epoch = epoch;
                self.told = slots.to_vec();
            }
            Answer::Left => self.give_up(random),
            // Fenced or unknown: it stops its work and joins anew.
            Answer::Refused {
                number: 25 | 42 | 110,
                ..
            } => self.give_up(random),
            // Anything else is tried again.
            _ => {}
        }
    }

    fn give_up(&mut self, random: &mut Random) {
        self.epoch = 0;
        self.told.clear();
        self.working_on.clear();
        // At times it comes back as another process.
        if random.chance(1, 4) {
            self.id = ids::new(random);
        }
    }
}

/// Mostly topics in use, at times others too, or none.
fn some_topics(random: &mut Random, profile: &Profile) -> u16 {
    let in_use = ((1_u32 << profile.topics) - 1) as u16;
    let any = random.next() as u16;
    match random.below(10) {
        0 => any,
        1 => 0,
        2..=4 => in_use & any,
        _ => in_use,
    }
}
