//! Refusals and their numbers.

/// Why an event is refused: the rows of 01's table, of which `InvalidRequest` and `BadTarget` have
/// two each.
#[derive(Clone, Copy, PartialEq, Eq, Debug)]
pub enum Refusal {
    /// 1001: the tick is 2^31 or more past the last one, which is to say before it.
    Clock,
    /// 42: an ID, an epoch, a timeout or a list that no heartbeat may have, a join that lacks
    /// something, or an ordinary heartbeat that lists a slot the member doesn't hold.
    InvalidRequest,
    /// 25: an ordinary heartbeat or a leave from an ID that is no member's.
    UnknownMemberId,
    /// 81: a join, and there are 32 members.
    GroupMaxSizeReached,
    /// 110: an ordinary heartbeat whose epoch isn't the member's.
    FencedMemberEpoch,
    /// 1006: an install whose list isn't 1,024 long, with slot 65,535; or its first bad slot. That is
    /// one given away wrongly, because the place is above 31 or empty, the slot doesn't exist or the
    /// member doesn't subscribe to its topic; or one left over, with 255 though it exists and some
    /// member subscribes to its topic.
    BadTarget {
        /// The slot that is reported.
        slot: u16,
    },
    /// 1004: an install whose epoch isn't the group's.
    Stale,
    /// 1005: an install, and the group's epoch has its target.
    Already,
    /// 1007: a number, a count or an ID that the topic can't have.
    BadTopic,
    /// 1002: the group's epoch would rise past 2,147,483,647.
    EpochEnd,
    /// 1003: the records don't fit `records`, or the slots `assignment`.
    Room,
}

impl Refusal {
    /// 01's number.
    pub fn number(self) -> u16 {
        match self {
            Refusal::Clock => 1001,
            Refusal::InvalidRequest => 42,
            Refusal::UnknownMemberId => 25,
            Refusal::GroupMaxSizeReached => 81,
            Refusal::FencedMemberEpoch => 110,
            Refusal::BadTarget { .. } => 1006,
            Refusal::Stale => 1004,
            Refusal::Already => 1005,
            Refusal::BadTopic => 1007,
            Refusal::EpochEnd => 1002,
            Refusal::Room => 1003,
        }
    }

    /// The refusal with 01's number; the slot counts for `BadTarget` alone. None: no refusal has it.
    #[inline]
    pub(crate) fn of(number: u32, slot: u16) -> Option<Refusal> {
        Some(match number {
            1001 => Refusal::Clock,
            42 => Refusal::InvalidRequest,
            25 => Refusal::UnknownMemberId,
            81 => Refusal::GroupMaxSizeReached,
            110 => Refusal::FencedMemberEpoch,
            1006 => Refusal::BadTarget { slot },
            1004 => Refusal::Stale,
            1005 => Refusal::Already,
            1007 => Refusal::BadTopic,
            1002 => Refusal::EpochEnd,
            1003 => Refusal::Room,
            _ => return None,
        })
    }
}

#[cfg(test)]
mod tests {
    use super::*;

    #[test]
    fn a_refusal_is_the_one_of_its_number() {
        let of_number = |number| Refusal::of(number, 7);
        let refusals: Vec<(u32, Refusal)> = (0..=u32::from(u16::MAX))
            .filter_map(|number| Some((number, of_number(number)?)))
            .collect();
        assert_eq!(refusals.len(), 11);
        for (number, refusal) in refusals {
            assert_eq!(u32::from(refusal.number()), number);
        }
        assert_eq!(of_number(1006), Some(Refusal::BadTarget { slot: 7 }));
    }
}
