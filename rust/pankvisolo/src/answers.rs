//! Answers from the plain numbers of a reply. The numbers don't say which event they answer, so
//! each kind of event has its function here.

use crate::ffi;
use crate::protocol::{Answer, Reply};
use crate::refusal::Refusal;

/// The number of an event that was accepted.
const ACCEPTED: u32 = 0;
/// The epoch of an answer to a leave; no member has it.
const LEFT: i64 = -1;

#[inline]
pub(crate) fn of_heartbeat(reply: &ffi::Reply) -> Reply {
    answered(reply, |reply| match reply.epoch {
        LEFT => Answer::Left,
        epoch => Answer::Assignment {
            epoch: member_epoch(epoch),
            interval: reply.interval,
            count: reply.count as usize,
        },
    })
}

#[inline]
pub(crate) fn of_sweep(reply: &ffi::Reply) -> Reply {
    answered(reply, |reply| Answer::Swept(reply.count))
}

/// A topic's or an install's.
#[inline]
pub(crate) fn of_change(reply: &ffi::Reply) -> Reply {
    answered(reply, |_| Answer::Done)
}

#[inline]
fn answered(reply: &ffi::Reply, accepted: impl Fn(&ffi::Reply) -> Answer) -> Reply {
    let answer = match reply.number {
        ACCEPTED => accepted(reply),
        number => Answer::Refused(refusal(number, reply.slot)),
    };
    Reply {
        answer,
        written: reply.written,
    }
}

fn refusal(number: u32, slot: u16) -> Refusal {
    match Refusal::of(number, slot) {
        Some(refusal) => refusal,
        // The number is proved to be `number_of` a refusal of the rules, and those are `Refusal`'s.
        None => unreachable!("no refusal has the number {number}"),
    }
}

/// 01: "Epochs are signed 32-bit." The field is wider so that it has room for -1 beside Rattle's
/// unsigned epochs.
fn member_epoch(epoch: i64) -> i32 {
    match i32::try_from(epoch) {
        Ok(epoch) => epoch,
        // A member's epoch is some group epoch, and those end at 2,147,483,647.
        Err(_) => unreachable!("no member has the epoch {epoch}"),
    }
}
