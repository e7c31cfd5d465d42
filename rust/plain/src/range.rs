//! "Our own range assignor": a target for sites that have no assignor.

use crate::group::Group;
use crate::limits::{NO_PLACE, PARTITIONS, SLOTS};
use crate::protocol::Place;

impl Group {
    /// The entries of an install that shares out every topic among its subscribers; "with k = 0 none
    /// are given".
    pub fn range_target(&self) -> [u8; SLOTS] {
        let mut entries = [NO_PLACE; SLOTS];
        for (number, topic) in self.topics.iter().enumerate() {
            let Some(topic) = topic else {
                continue;
            };
            let subscribers = self.subscribers(number);
            let shares = shares(usize::from(topic.count), subscribers.len());
            // "each a run of neighbours, in order".
            let mut slot = number * PARTITIONS;
            for (place, share) in subscribers.into_iter().zip(shares) {
                entries[slot..slot + share].fill(place);
                slot += share;
            }
        }
        entries
    }

    /// "take its subscribers in rising order of ID bytes"; of equal IDs, the lower place first.
    fn subscribers(&self, topic: usize) -> Vec<Place> {
        let members = self.members.values();
        let mut subscribers: Vec<_> = members
            .filter(|member| member.subscribes_to(topic))
            .map(|member| (member.id, member.place))
            .collect();
        subscribers.sort();
        subscribers.into_iter().map(|(_, place)| place).collect()
    }
}

/// "n partitions over k subscribers, the first n mod k get one more than the rest".
fn shares(partitions: usize, subscribers: usize) -> Vec<usize> {
    if subscribers == 0 {
        return Vec::new();
    }
    let (share, more) = (partitions / subscribers, partitions % subscribers);
    let of_one = |at| if at < more { share + 1 } else { share };
    (0..subscribers).map(of_one).collect()
}

#[cfg(test)]
mod tests {
    use super::shares;

    #[test]
    fn the_first_get_one_more() {
        assert_eq!(shares(7, 3), [3, 2, 2]);
        assert_eq!(shares(8, 3), [3, 3, 2]);
        assert_eq!(shares(9, 3), [3, 3, 3]);
        assert_eq!(shares(2, 5), [1, 1, 0, 0, 0]);
        assert_eq!(shares(64, 32), [2; 32]);
        assert_eq!(shares(64, 1), [64]);
        assert_eq!(shares(64, 0), []);
    }
}
