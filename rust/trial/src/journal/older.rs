//! Journals of brokers before request 3, whose installs could leave any slot over. "Journals are read
//! without this rule", so all that they wrote is good.

use crate::coordinator::Coordinator;
use crate::data::{Event, Reply};
use crate::generate::{Profile, World};
use crate::random::Random;
use crate::sides::Reference;

/// How a broker serves an event.
pub type Serve = fn(&mut Reference, &Event, &mut [u8], &mut [u16]) -> Reply;

/// One of so many worlds is before request 3.
const OLDER: usize = 2;

/// A world of today or before request 3, and how its broker serves.
pub fn some_world(profile: &'static Profile, mut random: Random) -> (World, Serve) {
    let is_older = random.chance(1, OLDER);
    let world = World::new(profile, random);
    match is_older {
        true => (world.before_request_3(), serve),
        false => (world, Reference::serve),
    }
}

/// As a broker before request 3 did.
pub fn serve(group: &mut Reference, event: &Event, records: &mut [u8], list: &mut [u16]) -> Reply {
    match event {
        Event::Install { epoch, entries } => group.install_partial(*epoch, entries, records).into(),
        _ => group.serve(event, records, list),
    }
}
