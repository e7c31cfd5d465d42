//! Heartbeats: the clock, then the form, then the join, leave or ordinary one that it is.

use crate::form::Form;
use crate::group::Group;
use crate::protocol::{Heartbeat, Reply};
use crate::refusal::Refusal;

impl Group {
    pub fn heartbeat(
        &mut self,
        request: &Heartbeat,
        records: &mut [u8],
        assignment: &mut [u16],
    ) -> Reply {
        self.try_heartbeat(request, records, assignment)
            .unwrap_or_else(Reply::refused)
    }

    fn try_heartbeat(
        &mut self,
        request: &Heartbeat,
        records: &mut [u8],
        assignment: &mut [u16],
    ) -> Result<Reply, Refusal> {
        let (id, tick) = (request.id, request.tick);
        self.check_clock(tick)?;
        match Form::of(request)? {
            Form::Join {
                subscription,
                timeout,
            } => self.join(id, tick, subscription, timeout, records),
            Form::Leave => self.leave(id, tick, records),
            Form::Ordinary(ordinary) => self.ordinary(id, tick, &ordinary, records, assignment),
        }
    }
}
