//! The first row 42: a heartbeat that is well formed is a join, a leave or an ordinary one.

use crate::limits::{JOINS, LARGEST_TIMEOUT, LEAVES, NO_TIMEOUT, SLOTS, ZERO_ID};
use crate::protocol::{Heartbeat, Slot};
use crate::refusal::Refusal;

pub(crate) enum Form<'a> {
    Join { subscription: u16, timeout: u32 },
    Leave,
    Ordinary(Ordinary<'a>),
}

pub(crate) struct Ordinary<'a> {
    pub epoch: i32,
    pub subscription: Option<u16>,
    pub timeout: Option<u32>,
    pub owned: Option<&'a [Slot]>,
}

impl<'a> Form<'a> {
    pub fn of(request: &Heartbeat<'a>) -> Result<Form<'a>, Refusal> {
        // "ID all zero". "For a leave, of the two rows 42 only the zero ID applies."
        if request.id == ZERO_ID {
            return Err(Refusal::InvalidRequest);
        }
        if request.epoch == LEAVES {
            return Ok(Form::Leave);
        }
        // "epoch below -1".
        if request.epoch < LEAVES {
            return Err(Refusal::InvalidRequest);
        }
        let timeout = timeout_given(request.timeout)?;
        if request.epoch == JOINS {
            return join(request, timeout);
        }
        // "list not strictly rising or with a number above 1,023".
        if !request.owned.is_none_or(is_set_of_slots) {
            return Err(Refusal::InvalidRequest);
        }
        Ok(Form::Ordinary(Ordinary {
            epoch: request.epoch,
            subscription: request.subscription,
            timeout,
            owned: request.owned,
        }))
    }
}

/// "a join without subscription, without timeout, or without an empty list".
fn join<'a>(request: &Heartbeat, timeout: Option<u32>) -> Result<Form<'a>, Refusal> {
    match (request.subscription, timeout, request.owned) {
        (Some(subscription), Some(timeout), Some([])) => Ok(Form::Join {
            subscription,
            timeout,
        }),
        _ => Err(Refusal::InvalidRequest),
    }
}

/// "timeout neither -1 nor 1 to 1,800,000".
fn timeout_given(timeout: i32) -> Result<Option<u32>, Refusal> {
    match timeout {
        NO_TIMEOUT => Ok(None),
        1..=LARGEST_TIMEOUT => Ok(Some(timeout as u32)),
        _ => Err(Refusal::InvalidRequest),
    }
}

fn is_set_of_slots(list: &[Slot]) -> bool {
    let rises = list.windows(2).all(|pair| pair[0] < pair[1]);
    // The last is the largest of a rising list.
    rises && list.last().is_none_or(|&slot| usize::from(slot) < SLOTS)
}
