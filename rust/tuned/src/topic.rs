//! "Topic: number, ID, count. A new number is made, or a known one's count raised."

use plain::{Answer, Id, Refusal, Reply, Topic, PARTITIONS, TOPICS, ZERO_ID};

use crate::group::{members, Group};
use crate::heartbeat::refused;
use crate::records::store;

impl Group {
    pub fn topic(&mut self, number: u32, id: Id, count: u32, records: &mut [u8]) -> Reply {
        self.try_topic(number as usize, id, count as usize, records)
            .unwrap_or_else(refused)
    }

    fn try_topic(
        &mut self,
        number: usize,
        id: Id,
        count: usize,
        records: &mut [u8],
    ) -> Result<Reply, Refusal> {
        let is_right = number < TOPICS && (1..=PARTITIONS).contains(&count) && id != ZERO_ID;
        if !is_right || self.is_of_another(number, &id) {
            return Err(Refusal::BadTopic);
        }
        let count = count as u8;
        // 1007: "known number with another ID, count falling".
        let known = self.topics[number];
        if known.is_some_and(|known| known.id != id || known.count > count) {
            return Err(Refusal::BadTopic);
        }
        let topic = Topic { id, count };
        let written = match known == Some(topic) {
            // "The same count again is accepted and changes nothing."
            true => 0,
            false => self.set_topic(number, topic, records)?,
        };
        Ok(Reply {
            answer: Answer::Done,
            written,
        })
    }

    fn set_topic(
        &mut self,
        number: usize,
        topic: Topic,
        records: &mut [u8],
    ) -> Result<usize, Refusal> {
        // "G rises by one if this changed something and some member subscribes to the topic."
        let is_wanted =
            members(self.used).any(|place| self.seats[place].subscription >> number & 1 == 1);
        let epoch = match is_wanted {
            true => self.raised_epoch()?,
            false => self.epoch,
        };
        // "Topic: 4 if changed, 3 if G did."
        let written = store(records, |log| {
            log.topic(number as u8, &topic);
            if is_wanted {
                log.group_epoch(epoch);
            }
        })?;

        self.topics[number] = Some(topic);
        self.epoch = epoch;
        Ok(written)
    }

    /// 1007: "ID of another topic".
    fn is_of_another(&self, number: usize, id: &Id) -> bool {
        let mut topics = self.topics.iter().enumerate();
        topics.any(|(other, topic)| other != number && topic.is_some_and(|topic| topic.id == *id))
    }
}
