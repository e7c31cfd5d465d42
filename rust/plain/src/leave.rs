//! "Leave: only ID and tick are read. The member, its A and P go, its target entries become none,
//! G rises by one."

use crate::group::Group;
use crate::protocol::{Answer, Id, Reply};
use crate::records::Records;
use crate::refusal::Refusal;

impl Group {
    pub(crate) fn leave(
        &mut self,
        id: Id,
        tick: u32,
        records: &mut [u8],
    ) -> Result<Reply, Refusal> {
        // 25: "ordinary or leave, ID unknown".
        let member = self.members.get(&id).ok_or(Refusal::UnknownMemberId)?;
        let epoch = self.epoch_after_removal();
        // "Leave: 8 gone, 7 empty (if it was not), 5 gone, 3 if G changed."
        let mut log = Records::new();
        log.gone(member, self.has_target(member.place));
        if epoch != self.epoch {
            log.group_epoch(epoch);
        }
        let written = log.store(records)?;

        self.remove(&id);
        self.epoch = epoch;
        self.last_tick = tick;
        Ok(Reply {
            answer: Answer::Left,
            written,
        })
    }

    /// The member, its A, P and target go; "a place freed is used again".
    pub(crate) fn remove(&mut self, id: &Id) {
        if let Some(member) = self.members.remove(id) {
            self.places[usize::from(member.place)] = None;
            self.release(&member.holding);
            self.clear_target(member.place);
        }
    }
}
