//! "Sweep at a tick: removes, as leaving does, each member" that is overdue.

use plain::{Answer, Refusal, Reply};

use crate::group::{members, Group};
use crate::heartbeat::refused;
use crate::records::store;

impl Group {
    #[inline]
    pub fn sweep(&mut self, tick: u32, records: &mut [u8]) -> Reply {
        self.try_sweep(tick, records).unwrap_or_else(refused)
    }

    #[inline]
    fn try_sweep(&mut self, tick: u32, records: &mut [u8]) -> Result<Reply, Refusal> {
        self.check_clock(tick)?;
        let mut overdue = 0_u32;
        for place in members(self.used) {
            if self.is_overdue(place, tick) {
                overdue |= 1 << place;
            }
        }
        let written = match overdue {
            0 => 0,
            _ => self.remove_all(overdue, records)?,
        };
        self.last_tick = tick;
        Ok(Reply {
            answer: Answer::Swept(overdue.count_ones()),
            written,
        })
    }

    fn remove_all(&mut self, overdue: u32, records: &mut [u8]) -> Result<usize, Refusal> {
        // "G rises by one for the whole sweep if any went."
        let epoch = self.epoch_after_removal();
        // "as leave for each place rising, one 3 at the end if G changed".
        let written = store(records, |log| {
            for place in members(overdue) {
                log.gone(place, &self.sets[place].target);
            }
            if epoch != self.epoch {
                log.group_epoch(epoch);
            }
        })?;

        for place in members(overdue) {
            self.remove(place);
        }
        self.epoch = epoch;
        Ok(written)
    }
}
