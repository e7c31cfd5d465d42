//! 01's table of refusals.

/// Why an event is refused, in the order in which 01 tries them. `InvalidRequest` and `BadTarget`
/// stand in two rows of the table each.
#[derive(Clone, Copy, PartialEq, Eq, Debug)]
pub enum Refusal {
    /// 1001: "wrapped (tick - last tick) is 2^31 or more".
    Clock,
    /// 42: "ID all zero; epoch below -1; timeout neither -1 nor 1 to 1,800,000; list not strictly
    /// rising or with a number above 1,023; a join without subscription, without timeout, or
    /// without an empty list"; and again, after 110: "ordinary, a listed slot is in neither A nor
    /// P".
    InvalidRequest,
    /// 25: "ordinary or leave, ID unknown".
    UnknownMemberId,
    /// 81: "join, ID unknown, 32 members".
    GroupMaxSizeReached,
    /// 110: "ordinary, epoch is not E".
    FencedMemberEpoch,
    /// 1006: "install, list length not 1,024 (slot reported 65,535)"; and again, after 1005: "an
    /// entry not 255 whose place is above 31 or empty, or whose slot doesn't exist, or whose
    /// member doesn't subscribe", or "an existing slot has no owner while some member subscribes to
    /// its topic. The first bad slot of either sort is reported."
    BadTarget { slot: u16 },
    /// 1004: "install, epoch is not G".
    Stale,
    /// 1005: "install, T equals G".
    Already,
    /// 1007: "number above 15, count not 1 to 64, ID zero, ID of another topic, known number with
    /// another ID, count falling".
    BadTopic,
    /// 1002: "a join, changed subscription or topic would raise G past 2,147,483,647".
    EpochEnd,
    /// 1003: "the records don't fit the lent buffer, or A doesn't fit the lent list".
    Room,
}

impl Refusal {
    /// The number that 01's table gives.
    pub fn number(self) -> u16 {
        match self {
            Refusal::Clock => 1001,
            Refusal::InvalidRequest => 42,
            Refusal::UnknownMemberId => 25,
            Refusal::GroupMaxSizeReached => 81,
            Refusal::FencedMemberEpoch => 110,
            Refusal::BadTarget { .. } => 1006,
            Refusal::Stale => 1004,
            Refusal::Already => 1005,
            Refusal::BadTopic => 1007,
            Refusal::EpochEnd => 1002,
            Refusal::Room => 1003,
        }
    }
}
