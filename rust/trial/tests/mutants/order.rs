//! Two refusals tried in the wrong order.

use trial::data::{Beat, Reply};
use trial::trial::Check;
use trial::Coordinator;

use super::mutant::*;
use super::{caught, caught_on_each};

/// 25 before the first row 42.
struct UnknownFirst;

impl Mutation for UnknownFirst {
    fn heartbeat(&self, mutant: &mut Mutant, beat: &Beat, lent: &mut Lent) -> Reply {
        let reply = mutant.take(beat, lent);
        let is_swapped =
            is_refused(reply, 42) && beat.epoch > 0 && find(&mutant.group, &beat.id).is_none();
        if is_swapped {
            return refused(25);
        }
        reply
    }
}

#[test]
fn unknown_before_malformed() {
    caught_on_each(&UnknownFirst, Check::Table);
}

/// 42 again before 110.
struct NotHeldFirst;

impl Mutation for NotHeldFirst {
    fn heartbeat(&self, mutant: &mut Mutant, beat: &Beat, lent: &mut Lent) -> Reply {
        let reply = mutant.take(beat, lent);
        if let (true, Some((_, member))) = (is_refused(reply, 110), find(&mutant.group, &beat.id)) {
            let mut owned = beat.owned.iter().flatten();
            if owned.any(|&slot| !member.holds(slot)) {
                return refused(42);
            }
        }
        reply
    }
}

#[test]
fn not_held_before_fenced() {
    caught_on_each(&NotHeldFirst, Check::Table);
}

/// 1002 before 81.
struct EpochEndFirst;

impl Mutation for EpochEndFirst {
    fn heartbeat(&self, mutant: &mut Mutant, beat: &Beat, lent: &mut Lent) -> Reply {
        let reply = mutant.take(beat, lent);
        if is_refused(reply, 81) && mutant.group.epoch() == i32::MAX {
            return refused(1002);
        }
        reply
    }
}

#[test]
fn the_end_of_epochs_before_a_full_group() {
    let report = caught(&EpochEndFirst);
    // 32 joins, a 33rd, and nothing besides.
    assert_eq!(report.shortest.turns.len(), 33);
}

/// 1005 before 1004.
struct AlreadyFirst;

impl Mutation for AlreadyFirst {
    fn install(&self, mutant: &mut Mutant, epoch: i32, entries: &[u8], buffer: &mut [u8]) -> Reply {
        let reply = Coordinator::install(&mut mutant.group, epoch, entries, buffer);
        if is_refused(reply, 1004) && mutant.group.epoch() == mutant.group.target_epoch() {
            return refused(1005);
        }
        reply
    }
}

#[test]
fn already_before_stale() {
    caught_on_each(&AlreadyFirst, Check::Table);
}
