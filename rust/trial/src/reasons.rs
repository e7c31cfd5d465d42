//! 01's table, with 02's amendments, read a third time, over a snapshot of the group: which rows an
//! event earns, and by which reason. It tells apart what the numbers alone do not (the two rows 42,
//! the two rows 1006).

use crate::coordinator::Coordinator;
use crate::data::{
    Beat, Event, Id, Member, Turn, NO_PLACE, PARTITIONS, PLACES, ROOMY, SLOTS, TOPICS, ZERO_ID,
};
use crate::labels::labels;
use crate::panics::caught;
use crate::snapshot::Snapshot;

const CLOCK_WENT_BACK: u32 = 1 << 31;
const LARGEST_EPOCH: i32 = 2_147_483_647;

labels! {
    /// The rows of the table.
    pub enum Row {
        Clock = "1001 CLOCK",
        Invalid = "42 INVALID_REQUEST",
        Unknown = "25 UNKNOWN_MEMBER_ID",
        Full = "81 GROUP_MAX_SIZE_REACHED",
        Fenced = "110 FENCED_MEMBER_EPOCH",
        NotHeld = "42 again",
        TargetLength = "1006 BAD_TARGET",
        Stale = "1004 STALE",
        Already = "1005 ALREADY",
        TargetEntry = "1006 again",
        BadTopic = "1007 BAD_TOPIC",
        EpochEnd = "1002 EPOCH_END",
        Room = "1003 ROOM",
    }
}

labels! {
    /// What can bring a row about.
    pub enum Reason {
        ClockOfHeartbeat = "heartbeat",
        ClockOfSweep = "sweep",
        ZeroId = "ID all zero",
        EpochBelow = "epoch below -1",
        Timeout = "timeout",
        ListNotRising = "list not strictly rising",
        ListAbove = "list with a number above 1,023",
        JoinNoSubscription = "join without subscription",
        JoinNoTimeout = "join without timeout",
        JoinNoList = "join without a list",
        JoinWithSlots = "join with a list that is not empty",
        UnknownOrdinary = "ordinary",
        UnknownLeave = "leave",
        Full = "join of a 33rd",
        Fenced = "epoch is not E",
        NotHeld = "a listed slot is in neither A nor P",
        TargetLength = "list length not 1,024",
        Stale = "epoch is not G",
        Already = "T equals G",
        PlaceAbove = "place above 31",
        PlaceEmpty = "place empty",
        SlotMissing = "slot doesn't exist",
        NotSubscribed = "member doesn't subscribe",
        LeftOver = "slot left over",
        TopicNumber = "number above 15",
        TopicCount = "count not 1 to 64",
        TopicZeroId = "ID zero",
        TopicIdTaken = "ID of another topic",
        TopicOtherId = "known number with another ID",
        TopicFalling = "count falling",
        EndOfJoin = "join",
        EndOfRejoin = "rejoin",
        EndOfSubscription = "changed subscription",
        EndOfTopic = "topic",
        RoomForRecords = "the records don't fit the lent buffer",
        RoomForLastByte = "the buffer is one byte short",
        RoomForSlots = "A doesn't fit the lent list",
        RoomForLastSlot = "the list is one slot short",
    }
}

/// A reason, and for 1006 the slot reported.
#[derive(Clone, Copy, PartialEq, Eq, Debug)]
pub struct Why {
    pub reason: Reason,
    pub slot: Option<u16>,
}

impl Reason {
    pub fn row(self) -> Row {
        use Reason::*;
        match self {
            ClockOfHeartbeat | ClockOfSweep => Row::Clock,
            ZeroId | EpochBelow | Timeout | ListNotRising | ListAbove | JoinNoSubscription
            | JoinNoTimeout | JoinNoList | JoinWithSlots => Row::Invalid,
            UnknownOrdinary | UnknownLeave => Row::Unknown,
            Full => Row::Full,
            Fenced => Row::Fenced,
            NotHeld => Row::NotHeld,
            TargetLength => Row::TargetLength,
            Stale => Row::Stale,
            Already => Row::Already,
            PlaceAbove | PlaceEmpty | SlotMissing | NotSubscribed | LeftOver => Row::TargetEntry,
            TopicNumber | TopicCount | TopicZeroId | TopicIdTaken | TopicOtherId | TopicFalling => {
                Row::BadTopic
            }
            EndOfJoin | EndOfRejoin | EndOfSubscription | EndOfTopic => Row::EpochEnd,
            RoomForRecords | RoomForLastByte | RoomForSlots | RoomForLastSlot => Row::Room,
        }
    }

    pub fn number(self) -> u16 {
        match self.row() {
            Row::Clock => 1001,
            Row::Invalid | Row::NotHeld => 42,
            Row::Unknown => 25,
            Row::Full => 81,
            Row::Fenced => 110,
            Row::TargetLength | Row::TargetEntry => 1006,
            Row::Stale => 1004,
            Row::Already => 1005,
            Row::BadTopic => 1007,
            Row::EpochEnd => 1002,
            Row::Room => 1003,
        }
    }
}

/// What the event earns of every row but the last, in the table's order. The first is its due; the
/// others would be, were those before not in the way.
pub fn before_room<'a>(
    event: &'a Event,
    group: &'a Snapshot,
) -> Box<dyn Iterator<Item = Why> + 'a> {
    let plain = |reason| Why { reason, slot: None };
    match event {
        Event::Heartbeat(beat) => {
            let sender = group.member(&beat.id);
            let rows = HEARTBEAT_ROWS.iter();
            Box::new(
                rows.filter_map(move |row| row(beat, sender, group))
                    .map(plain),
            )
        }
        Event::Sweep { tick } => {
            let back = went_back(*tick, group);
            Box::new(back.then_some(plain(Reason::ClockOfSweep)).into_iter())
        }
        Event::Topic { number, id, count } => {
            let bad = bad_topic(*number, id, *count, group);
            let end = topic_past_end(*number, *count, group);
            Box::new(bad.into_iter().chain(end).map(plain))
        }
        Event::Install { epoch, entries } => {
            let rows = [
                target_length(entries),
                (*epoch != group.epoch).then_some(plain(Reason::Stale)),
                (group.target_epoch == group.epoch).then_some(plain(Reason::Already)),
                // "The first bad slot of either sort is reported."
                bad_entries(entries, group).next(),
            ];
            Box::new(rows.into_iter().flatten())
        }
    }
}

/// The last row: what the event needs is tried on a copy of the group with all the room there is.
pub fn room<C: Coordinator>(turn: &Turn, group: &C) -> Option<Why> {
    let (bytes, slots) = need(&turn.event, group)?;
    let lacking = |need: usize, lent: usize| need.saturating_sub(lent);
    let reason = match (lacking(bytes, turn.buffer), lacking(slots, turn.list)) {
        (0, 0) => return None,
        (0, 1) => Reason::RoomForLastSlot,
        (0, _) => Reason::RoomForSlots,
        (1, _) => Reason::RoomForLastByte,
        _ => Reason::RoomForRecords,
    };
    Some(Why { reason, slot: None })
}

/// The bytes and the list entries that the event needs, if it is accepted at all. A panic shows where
/// the event is tried.
pub fn need<C: Coordinator>(event: &Event, group: &C) -> Option<(usize, usize)> {
    let mut copy = group.clone();
    let reply = caught(|| copy.serve(event, &mut [0; ROOMY], &mut [0; SLOTS])).ok()?;
    let accepted = !reply.answer.is_refusal();
    accepted.then(|| (reply.written, reply.answer.told()))
}

fn went_back(tick: u32, group: &Snapshot) -> bool {
    tick.wrapping_sub(group.last_tick) >= CLOCK_WENT_BACK
}

type HeartbeatRow = fn(&Beat, Option<&Member>, &Snapshot) -> Option<Reason>;

const HEARTBEAT_ROWS: [HeartbeatRow; 7] = [
    clock,
    malformed,
    unknown,
    full,
    fenced,
    not_held,
    heartbeat_past_end,
];

fn clock(beat: &Beat, _: Option<&Member>, group: &Snapshot) -> Option<Reason> {
    went_back(beat.tick, group).then_some(Reason::ClockOfHeartbeat)
}

fn malformed(beat: &Beat, _: Option<&Member>, _: &Snapshot) -> Option<Reason> {
    if beat.id == ZERO_ID {
        return Some(Reason::ZeroId);
    }
    if beat.epoch == -1 {
        return None;
    }
    if beat.epoch < -1 {
        return Some(Reason::EpochBelow);
    }
    if beat.timeout != -1 && !(1..=1_800_000).contains(&beat.timeout) {
        return Some(Reason::Timeout);
    }
    let list = beat.owned.as_deref().unwrap_or(&[]);
    if (1..list.len()).any(|at| list[at - 1] >= list[at]) {
        return Some(Reason::ListNotRising);
    }
    if list.iter().any(|&slot| slot > 1_023) {
        return Some(Reason::ListAbove);
    }
    (beat.epoch == 0).then(|| lacking(beat)).flatten()
}

fn lacking(join: &Beat) -> Option<Reason> {
    if join.subscription.is_none() {
        return Some(Reason::JoinNoSubscription);
    }
    if join.timeout == -1 {
        return Some(Reason::JoinNoTimeout);
    }
    match join.owned.as_deref() {
        None => Some(Reason::JoinNoList),
        Some([]) => None,
        Some(_) => Some(Reason::JoinWithSlots),
    }
}

fn unknown(beat: &Beat, sender: Option<&Member>, _: &Snapshot) -> Option<Reason> {
    match (sender, beat.epoch) {
        (None, -1) => Some(Reason::UnknownLeave),
        (None, 1..) => Some(Reason::UnknownOrdinary),
        _ => None,
    }
}

fn full(beat: &Beat, sender: Option<&Member>, group: &Snapshot) -> Option<Reason> {
    let is_full = group.members.len() >= usize::from(PLACES);
    (beat.epoch == 0 && sender.is_none() && is_full).then_some(Reason::Full)
}

fn fenced(beat: &Beat, sender: Option<&Member>, _: &Snapshot) -> Option<Reason> {
    let epoch = sender?.epoch;
    (beat.epoch > 0 && beat.epoch != epoch).then_some(Reason::Fenced)
}

fn not_held(beat: &Beat, sender: Option<&Member>, _: &Snapshot) -> Option<Reason> {
    let sender = sender?;
    let mut list = beat.owned.iter().flatten();
    (beat.epoch > 0 && list.any(|&slot| !sender.holds(slot))).then_some(Reason::NotHeld)
}

fn heartbeat_past_end(beat: &Beat, sender: Option<&Member>, group: &Snapshot) -> Option<Reason> {
    if group.epoch != LARGEST_EPOCH {
        return None;
    }
    match (sender, beat.epoch) {
        (None, 0) => Some(Reason::EndOfJoin),
        (Some(_), 0) => Some(Reason::EndOfRejoin),
        (Some(sender), 1..) => {
            let given = beat.subscription?;
            (given != sender.subscription).then_some(Reason::EndOfSubscription)
        }
        _ => None,
    }
}

fn bad_topic(number: u32, id: &Id, count: u32, group: &Snapshot) -> Option<Reason> {
    if number >= u32::from(TOPICS) {
        return Some(Reason::TopicNumber);
    }
    if count == 0 || count as usize > PARTITIONS {
        return Some(Reason::TopicCount);
    }
    if *id == ZERO_ID {
        return Some(Reason::TopicZeroId);
    }
    let mut others = group
        .topics
        .iter()
        .filter(|(at, _)| u32::from(*at) != number);
    if others.any(|(_, topic)| topic.id == *id) {
        return Some(Reason::TopicIdTaken);
    }
    let known = group.topic_at(number)?;
    if known.id != *id {
        return Some(Reason::TopicOtherId);
    }
    (count < u32::from(known.count)).then_some(Reason::TopicFalling)
}

fn topic_past_end(number: u32, count: u32, group: &Snapshot) -> Option<Reason> {
    let known = group.topic_at(number).map_or(0, |topic| topic.count);
    let mut members = group.members.iter();
    let raises = count > u32::from(known)
        && number < u32::from(TOPICS)
        && members.any(|(_, member)| member.subscribes_to(number as u8));
    (raises && group.epoch == LARGEST_EPOCH).then_some(Reason::EndOfTopic)
}

fn target_length(entries: &[u8]) -> Option<Why> {
    (entries.len() != SLOTS).then_some(Why {
        reason: Reason::TargetLength,
        slot: Some(65_535),
    })
}

/// What is wrong with each slot of a target, in the order of the slots.
pub fn bad_entries<'a>(entries: &'a [u8], group: &'a Snapshot) -> impl Iterator<Item = Why> + 'a {
    let entries = entries.iter().take(SLOTS).enumerate();
    entries.filter_map(|(slot, &entry)| {
        let reason = of_entry(slot, entry, group)?;
        let slot = Some(slot as u16);
        Some(Why { reason, slot })
    })
}

/// "an entry not 255 whose place is above 31 or empty, or whose slot doesn't exist, or whose member
/// doesn't subscribe"; "also when an existing slot has no owner while some member subscribes to its
/// topic".
pub fn of_entry(slot: usize, entry: u8, group: &Snapshot) -> Option<Reason> {
    let (topic, partition) = ((slot / PARTITIONS) as u8, slot % PARTITIONS);
    let count = group.topic_at(topic.into()).map_or(0, |topic| topic.count);
    let exists = partition < usize::from(count);
    if entry == NO_PLACE {
        let mut members = group.members.iter();
        let is_left_over = exists && members.any(|(_, member)| member.subscribes_to(topic));
        return is_left_over.then_some(Reason::LeftOver);
    }
    if entry >= PLACES {
        return Some(Reason::PlaceAbove);
    }
    let Some(member) = group.member_at(entry) else {
        return Some(Reason::PlaceEmpty);
    };
    if !exists {
        return Some(Reason::SlotMissing);
    }
    (!member.subscribes_to(topic)).then_some(Reason::NotSubscribed)
}
