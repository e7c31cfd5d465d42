//! "Topic: number, ID, count. A new number is made, or a known one's count raised."

use crate::group::Group;
use crate::limits::{PARTITIONS, TOPICS, ZERO_ID};
use crate::protocol::{Answer, Id, Reply, Topic};
use crate::records::Records;
use crate::refusal::Refusal;

impl Group {
    pub fn topic(&mut self, number: u32, id: Id, count: u32, records: &mut [u8]) -> Reply {
        self.try_topic(number, id, count, records)
            .unwrap_or_else(Reply::refused)
    }

    fn try_topic(
        &mut self,
        number: u32,
        id: Id,
        count: u32,
        records: &mut [u8],
    ) -> Result<Reply, Refusal> {
        let (index, topic) = self.check_topic(number, id, count)?;
        // "The same count again is accepted and changes nothing."
        let changed = self.topics[index] != Some(topic);
        // "G rises by one if this changed something and some member subscribes to the topic."
        let raises = changed && self.someone_subscribes_to(index);
        let epoch = if raises {
            self.raised_epoch()?
        } else {
            self.epoch
        };
        // "Topic: 4 if changed, 3 if G did."
        let mut log = Records::new();
        if changed {
            log.topic(index as u8, &topic);
        }
        if raises {
            log.group_epoch(epoch);
        }
        let written = log.store(records)?;

        self.topics[index] = Some(topic);
        self.epoch = epoch;
        Ok(Reply {
            answer: Answer::Done,
            written,
        })
    }

    /// 1007: "number above 15, count not 1 to 64, ID zero, ID of another topic, known number with
    /// another ID, count falling".
    fn check_topic(&self, number: u32, id: Id, count: u32) -> Result<(usize, Topic), Refusal> {
        let index = number as usize;
        if index >= TOPICS || !(1..=PARTITIONS).contains(&(count as usize)) || id == ZERO_ID {
            return Err(Refusal::BadTopic);
        }
        let mut others = (0..TOPICS).filter(|&other| other != index);
        if others.any(|other| self.topics[other].is_some_and(|topic| topic.id == id)) {
            return Err(Refusal::BadTopic);
        }
        let count = count as u8;
        if self.topics[index].is_some_and(|known| known.id != id || known.count > count) {
            return Err(Refusal::BadTopic);
        }
        Ok((index, Topic { id, count }))
    }

    fn someone_subscribes_to(&self, topic: usize) -> bool {
        let mut members = self.members.values();
        members.any(|member| member.subscribes_to(topic))
    }
}
