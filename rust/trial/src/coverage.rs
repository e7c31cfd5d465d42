//! Situations that events come to, told from the group before and after them.

mod left_over;
mod range;

use crate::data::{Event, Turn};
use crate::labels::labels;
use crate::reader::Record;
use crate::trial::Step;

labels! {
    /// What a trial must reach.
    pub enum Situation {
        Gained = "slots entered A",
        Moved = "slots moved to P",
        Freed = "P freed by a list",
        FreedAndBack = "a freed slot back in A at once",
        FreedAndMoved = "P freed and set anew at once",
        KeptByPart = "P kept: the list has a part of it",
        KeptByNoList = "P kept: no list",
        StepOneAlone = "P kept, subscription or timeout stored",
        RejoinWithTarget = "a rejoin that emptied a target",
        LargeSet = "a set of 128 slots or more stored",
        SweptSeveral = "several members swept at once",
        SweptByTimeout = "swept for P alone",
        SessionJustShort = "44,999 ms unheard, stays",
        SessionJustOver = "45,000 ms unheard, goes",
        RevocationJustShort = "P one ms short of the timeout, stays",
        RevocationJustOver = "P set for just the timeout, goes",
        RanOver = "the last tick ran over",
        LargestStep = "a tick 2^31 - 1 ahead",
        FullGroup = "the 32nd member joined",
        LastRaise = "G reached its largest value",
        RemovalAtEnd = "a leave or sweep at G's largest value",
        InstallAtEnd = "an install at G's largest value",
        ExactBuffer = "a buffer of just the records",
        LongerBuffer = "a buffer one byte longer",
        ExactList = "a list of just the slots",
        LongerList = "a list one slot longer",
        LeftOverFirst = "refused, the first of the wanted slots left over",
        LeftOverBetween = "refused, one between them left over",
        LeftOverLast = "refused, the last of them left over",
        LeftOverAtEnd = "refused, slot 1,023 left over",
        LeftOverBeforeOther = "refused, a slot left over before one bad otherwise",
        OtherBeforeLeftOver = "refused, a slot bad otherwise before one left over",
        UnwantedLeft = "an install that leaves slots nobody subscribes to",
        HoleByTopic = "a hole by a topic that grew, T was G",
        HoleByTopicLater = "a hole by a topic that grew, T was below G",
        HoleByLeave = "a hole by a leave, T was G",
        HoleByLeaveLater = "a hole by a leave, T was below G",
        HoleBySweep = "a hole by a sweep, T was G",
        HoleBySweepLater = "a hole by a sweep, T was below G",
        HoleBySubscription = "a hole by a changed subscription, T was G",
        HoleBySubscriptionLater = "a hole by a changed subscription, T was below G",
        HoleInForce = "a hole while T stays G",
        RangeUneven = "a range target with shares that differ",
        RangeFewer = "a range target of fewer partitions than subscribers",
        RangeUnwanted = "a range target without a topic nobody subscribes to",
        RangeNotByPlace = "a range target in which places don't rise",
        RangeInForce = "an install of the range target",
    }
}

pub fn is_reached(situation: Situation, turn: &Turn, step: &Step) -> bool {
    use Situation::*;
    let (before, after) = (step.before, step.after);
    if step.earned.due.is_some() {
        return left_over::is_reached_by_refusal(situation, turn, step);
    }
    match situation {
        Gained | Moved | Freed | FreedAndBack | FreedAndMoved | KeptByPart | KeptByNoList
        | StepOneAlone => is_reached_by_sender(situation, turn, step),
        SweptSeveral | SweptByTimeout | SessionJustShort | SessionJustOver
        | RevocationJustShort | RevocationJustOver => is_reached_by_sweep(situation, turn, step),
        RejoinWithTarget => {
            is_join(turn) && matches!(step.records[..], [Record::Target { .. }, ..])
        }
        LargeSet => step.records.iter().any(is_large),
        RanOver => after.last_tick < before.last_tick,
        LargestStep => after.last_tick.wrapping_sub(before.last_tick) == (1 << 31) - 1,
        FullGroup => before.members.len() == 31 && after.members.len() == 32,
        LastRaise => before.epoch < i32::MAX && after.epoch == i32::MAX,
        RemovalAtEnd => before.epoch == i32::MAX && after.members.len() < before.members.len(),
        InstallAtEnd => matches!(turn.event, Event::Install { .. }) && before.epoch == i32::MAX,
        ExactBuffer => turn.buffer > 0 && step.reply.written == turn.buffer,
        LongerBuffer => turn.buffer > 1 && step.reply.written == turn.buffer - 1,
        ExactList => turn.list > 0 && step.slots.len() == turn.list,
        LongerList => turn.list > 1 && step.slots.len() == turn.list - 1,
        RangeUneven | RangeFewer | RangeUnwanted | RangeNotByPlace | RangeInForce => {
            range::is_reached(situation, turn, step)
        }
        _ => left_over::is_reached(situation, turn, step),
    }
}

fn is_join(turn: &Turn) -> bool {
    matches!(&turn.event, Event::Heartbeat(beat) if beat.epoch == 0)
}

fn is_large(record: &Record) -> bool {
    match record {
        Record::Target { slots, .. } => slots.len() >= 128,
        Record::Assignment { assigned, .. } => assigned.len() >= 128,
        _ => false,
    }
}

/// What an ordinary heartbeat did to its sender.
fn is_reached_by_sender(situation: Situation, turn: &Turn, step: &Step) -> bool {
    let Event::Heartbeat(beat) = &turn.event else {
        return false;
    };
    let members = (step.before.member(&beat.id), step.after.member(&beat.id));
    let (Some(before), Some(after)) = members else {
        return false;
    };
    if beat.epoch == 0 {
        return false;
    }
    let waited = !before.revoking.is_empty();
    let kept = waited && before.revoking == after.revoking;
    let freed = waited && !kept;
    match situation {
        Situation::Gained => after.assigned.len() > before.assigned.len(),
        Situation::Moved => !waited && !after.revoking.is_empty(),
        Situation::Freed => freed,
        Situation::FreedAndBack => {
            let mut was_waiting = before.revoking.iter();
            freed && was_waiting.any(|slot| after.assigned.contains(slot))
        }
        Situation::FreedAndMoved => freed && !after.revoking.is_empty(),
        Situation::KeptByNoList => kept && beat.owned.is_none(),
        Situation::KeptByPart => {
            let listed = |slot: &&u16| beat.owned.iter().flatten().any(|owned| owned == *slot);
            let count = before.revoking.iter().filter(listed).count();
            kept && count > 0 && count < before.revoking.len()
        }
        _ => kept && step.reply.written > 0,
    }
}

fn is_reached_by_sweep(situation: Situation, turn: &Turn, step: &Step) -> bool {
    let Event::Sweep { tick } = turn.event else {
        return false;
    };
    let (before, after) = (step.before, step.after);
    if situation == Situation::SweptSeveral {
        return before.members.len() > after.members.len() + 1;
    }
    before.members.iter().any(|(place, member)| {
        let silent = tick.wrapping_sub(member.heard);
        let waiting = tick.wrapping_sub(member.revoked_at);
        let has_p = !member.revoking.is_empty();
        let stays = after.member_at(*place).is_some();
        match situation {
            Situation::SweptByTimeout => !stays && silent < 45_000,
            Situation::SessionJustShort => stays && silent == 44_999,
            Situation::SessionJustOver => !stays && silent == 45_000 && !has_p,
            Situation::RevocationJustShort => {
                stays && has_p && waiting.wrapping_add(1) == member.timeout
            }
            _ => !stays && has_p && waiting == member.timeout && silent < 45_000,
        }
    })
}
