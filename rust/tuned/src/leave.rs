//! "Leave: only ID and tick are read. The member, its A and P go, its target entries become none,
//! G rises by one."

use plain::{Answer, Id, Refusal, Reply};

use crate::group::Group;
use crate::records::store;

impl Group {
    pub(crate) fn leave(
        &mut self,
        id: &Id,
        tick: u32,
        records: &mut [u8],
    ) -> Result<Reply, Refusal> {
        let place = self.place_of(id)?;
        let epoch = self.epoch_after_removal();
        // "Leave: 8 gone, 7 empty (if it was not), 5 gone, 3 if G changed."
        let written = store(records, |log| {
            log.gone(place, &self.sets[place].target);
            if epoch != self.epoch {
                log.group_epoch(epoch);
            }
        })?;

        self.remove(place);
        self.epoch = epoch;
        self.last_tick = tick;
        Ok(Reply {
            answer: Answer::Left,
            written,
        })
    }
}
