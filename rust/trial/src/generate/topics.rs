//! Topics made and raised, and each way to get 1007.

use super::{ids, World};
use crate::coordinator::Coordinator;
use crate::data::{Event, PARTITIONS, ZERO_ID};

impl World {
    pub(super) fn topic<C: Coordinator>(&mut self, group: &C) -> Event {
        let index = self.random.below(self.topic_ids.len());
        let most = self.profile.partitions;
        let count = match group.topic_at(index as u8) {
            None => {
                let any = self.random.between(1, most);
                self.random.pick(&[any, most])
            }
            Some(known) => {
                let count = usize::from(known.count);
                let more = self.random.between(count, most.max(count));
                self.random
                    .pick(&[count, more, (count + 1).min(PARTITIONS)])
            }
        };
        Event::Topic {
            number: index as u32,
            id: self.topic_ids[index],
            count: count as u32,
        }
    }

    pub(super) fn bad_topic<C: Coordinator>(&mut self, group: &C) -> Event {
        let index = self.random.below(self.topic_ids.len());
        let mut number = index as u32;
        let mut id = self.topic_ids[index];
        let known = group.topic_at(index as u8);
        let mut count = known.map_or(1, |topic| u32::from(topic.count));
        // At times two faults at once.
        for _ in 0..self.random.between(1, 2) {
            match self.random.below(6) {
                0 => number = self.random.pick(&[16, 17, 255, 256, 1 << 31, u32::MAX]),
                1 => count = self.random.pick(&[0, 65, 256, 257, 320, u32::MAX]),
                2 => id = ZERO_ID,
                3 => number = self.random.below(16) as u32,
                4 => id = ids::new(&mut self.random),
                _ => count = count.saturating_sub(1),
            }
        }
        Event::Topic { number, id, count }
    }
}
