//! Epochs, ticks and counts.

use trial::data::{Answer, Beat, Reply};
use trial::trial::Check;
use trial::Coordinator;

use super::mutant::*;
use super::{caught, caught_on_both_sides, caught_on_each};

/// Compares ticks as plain numbers.
struct PlainTicks;

impl Mutation for PlainTicks {
    fn heartbeat(&self, mutant: &mut Mutant, beat: &Beat, lent: &mut Lent) -> Reply {
        if beat.tick < mutant.group.last_tick() {
            return refused(1001);
        }
        mutant.take(beat, lent)
    }

    fn sweep(&self, mutant: &mut Mutant, tick: u32, records: &mut [u8]) -> Reply {
        if tick < mutant.group.last_tick() {
            return refused(1001);
        }
        Coordinator::sweep(&mut mutant.group, tick, records)
    }
}

#[test]
fn ticks_compared_as_plain_numbers() {
    caught_on_each(&PlainTicks, Check::Table);
}

/// Raises G once for each member swept.
struct RaisesForEach;

impl Mutation for RaisesForEach {
    fn sweep(&self, mutant: &mut Mutant, tick: u32, records: &mut [u8]) -> Reply {
        let reply = Coordinator::sweep(&mut mutant.group, tick, records);
        if let Answer::Swept(removed) = reply.answer {
            mutant.number += removed.saturating_sub(1) as i32;
        }
        reply
    }

    fn epoch(&self, mutant: &Mutant) -> i32 {
        mutant.group.epoch().saturating_add(mutant.number)
    }
}

#[test]
fn g_raised_for_each_member_swept() {
    caught_on_each(&RaisesForEach, Check::Records);
}

/// Makes up the number swept.
struct CountsOneMore;

impl Mutation for CountsOneMore {
    fn sweep(&self, mutant: &mut Mutant, tick: u32, records: &mut [u8]) -> Reply {
        let mut reply = Coordinator::sweep(&mut mutant.group, tick, records);
        if let Answer::Swept(removed) = &mut reply.answer {
            *removed += u32::from(*removed > 1);
        }
        reply
    }
}

#[test]
fn a_number_swept_that_is_made_up() {
    caught_on_each(&CountsOneMore, Check::Change);
}

/// Sets the group's last tick although the heartbeat is refused.
struct TicksAtRefusal;

impl Mutation for TicksAtRefusal {
    fn heartbeat(&self, mutant: &mut Mutant, beat: &Beat, lent: &mut Lent) -> Reply {
        let reply = mutant.take(beat, lent);
        mutant.tick = is_refused(reply, 110).then_some(beat.tick);
        reply
    }

    fn last_tick(&self, mutant: &Mutant) -> u32 {
        mutant.tick.unwrap_or(mutant.group.last_tick())
    }
}

#[test]
fn a_tick_set_at_a_refusal() {
    caught_on_each(&TicksAtRefusal, Check::Change);
}

/// Changes at a refusal what shows only where the group is compared as a value.
struct ChangesHiddenAtRefusal;

impl Mutation for ChangesHiddenAtRefusal {
    fn install(&self, mutant: &mut Mutant, epoch: i32, entries: &[u8], buffer: &mut [u8]) -> Reply {
        let reply = Coordinator::install(&mut mutant.group, epoch, entries, buffer);
        mutant.number += i32::from(is_refused(reply, 1005));
        reply
    }
}

#[test]
fn what_nothing_shows_changed_at_a_refusal() {
    let report = caught(&ChangesHiddenAtRefusal);
    assert_eq!(report.fault.check, Check::Change);
    // An install for a fresh group's epoch, which has its target.
    assert_eq!(report.shortest.turns.len(), 1);
    caught_on_both_sides(&ChangesHiddenAtRefusal, Check::Change);
}
