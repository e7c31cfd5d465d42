//! "Sweep at a tick: removes, as leaving does, each member" that is overdue.

use crate::group::Group;
use crate::member::Membership;
use crate::protocol::{Answer, Id, Reply};
use crate::records::Records;
use crate::refusal::Refusal;

impl Group {
    pub fn sweep(&mut self, tick: u32, records: &mut [u8]) -> Reply {
        self.try_sweep(tick, records).unwrap_or_else(Reply::refused)
    }

    fn try_sweep(&mut self, tick: u32, records: &mut [u8]) -> Result<Reply, Refusal> {
        self.check_clock(tick)?;
        let overdue = self.overdue(tick);
        // "G rises by one for the whole sweep if any went."
        let epoch = if overdue.is_empty() {
            self.epoch
        } else {
            self.epoch_after_removal()
        };
        // "as leave for each place rising, one 3 at the end if G changed".
        let mut log = Records::new();
        for member in &overdue {
            log.gone(member, self.has_target(member.place));
        }
        if epoch != self.epoch {
            log.group_epoch(epoch);
        }
        let written = log.store(records)?;

        let removed: Vec<Id> = overdue.iter().map(|member| member.id).collect();
        for id in &removed {
            self.remove(id);
        }
        self.epoch = epoch;
        self.last_tick = tick;
        Ok(Reply {
            answer: Answer::Swept(removed.len() as u32),
            written,
        })
    }

    /// Those that go, by place.
    fn overdue(&self, tick: u32) -> Vec<&Membership> {
        let members = self.members.values();
        let mut overdue: Vec<&Membership> =
            members.filter(|member| member.is_overdue(tick)).collect();
        overdue.sort_by_key(|member| member.place);
        overdue
    }
}
