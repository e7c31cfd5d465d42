//! Heartbeats: the clock, then what each kind is told apart by.

use plain::{Answer, Heartbeat, Refusal, Reply, HEARTBEAT_INTERVAL, JOINS, LEAVES, ZERO_ID};

use crate::group::Group;

impl Group {
    #[inline]
    pub fn heartbeat(
        &mut self,
        request: &Heartbeat,
        records: &mut [u8],
        assignment: &mut [u16],
    ) -> Reply {
        self.try_heartbeat(request, records, assignment)
            .unwrap_or_else(refused)
    }

    #[inline]
    fn try_heartbeat(
        &mut self,
        request: &Heartbeat,
        records: &mut [u8],
        assignment: &mut [u16],
    ) -> Result<Reply, Refusal> {
        self.check_clock(request.tick)?;
        // 42: "ID all zero; epoch below -1".
        if request.id == ZERO_ID || request.epoch < LEAVES {
            return Err(Refusal::InvalidRequest);
        }
        match request.epoch {
            LEAVES => self.leave(&request.id, request.tick, records),
            JOINS => self.join(request, records),
            _ => self.ordinary(request, records, assignment),
        }
    }
}

pub(crate) fn refused(refusal: Refusal) -> Reply {
    let answer = Answer::Refused(refusal);
    Reply { answer, written: 0 }
}

/// "Each join or ordinary answer carries E, the interval and all of A."
#[inline]
pub(crate) fn assigned(epoch: i32, count: usize, written: usize) -> Reply {
    let interval = HEARTBEAT_INTERVAL;
    let answer = Answer::Assignment {
        epoch,
        interval,
        count,
    };
    Reply { answer, written }
}
