//! "Our own range assignor": a target for sites that have no assignor.

use plain::{NO_PLACE, PARTITIONS, PLACES, SLOTS};

use crate::group::{members, Group};

/// What the assignor reads of a member.
#[derive(Clone, Copy)]
struct Subscriber {
    /// The ID as a number that rises as its bytes do.
    rank: u128,
    place: u8,
    topics: u16,
}

const NOBODY: Subscriber = Subscriber {
    rank: 0,
    place: NO_PLACE,
    topics: 0,
};

impl Group {
    /// The entries of an install that shares out every topic among its subscribers: "n partitions over
    /// k subscribers, the first n mod k get one more than the rest, each a run of neighbours, in order.
    /// With k = 0 none are given."
    pub fn range_target(&self) -> [u8; SLOTS] {
        let mut entries = [NO_PLACE; SLOTS];
        let mut seats = [NOBODY; PLACES];
        let ranked = self.ranked(&mut seats);
        for (number, of_topic) in entries.chunks_exact_mut(PARTITIONS).enumerate() {
            let subscribers = || ranked.iter().filter(|one| one.topics >> number & 1 == 1);
            let partitions = self.topics[number].map_or(0, |topic| usize::from(topic.count));
            let count = subscribers().count();
            if partitions == 0 || count == 0 {
                continue;
            }
            let (share, more) = (partitions / count, partitions % count);
            let mut from = 0;
            for (at, subscriber) in subscribers().enumerate() {
                let to = from + share + usize::from(at < more);
                of_topic[from..to].fill(subscriber.place);
                from = to;
            }
        }
        entries
    }

    /// The members "in rising order of ID bytes"; of equal IDs, the lower place first.
    fn ranked<'a>(&self, seats: &'a mut [Subscriber; PLACES]) -> &'a [Subscriber] {
        let mut count = 0;
        for place in members(self.used) {
            let seat = &self.seats[place];
            seats[count] = Subscriber {
                rank: u128::from_be_bytes(seat.id),
                place: place as u8,
                topics: seat.subscription,
            };
            count += 1;
        }
        let ranked = &mut seats[..count];
        ranked.sort_unstable_by_key(|member| (member.rank, member.place));
        ranked
    }
}
