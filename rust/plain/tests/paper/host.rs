//! A host at which events are tried: it lends buffers with known bytes in them and checks, after
//! every event, that what must be left alone was; at a refusal that is everything.

use std::ops::Range;

use crate::coordinator::{Answer, Group, Heartbeat, Id, Member, Refusal, Reply, Topic};

/// "No event needs more than 4,096 bytes."
pub const ROOMY: usize = 4_096;
pub const ALL_SLOTS: usize = 1_024;
pub const NONE: u8 = 255;

pub const AA: Id = [0xAA; 16];
pub const BB: Id = [0xBB; 16];
pub const ZERO: Id = [0; 16];

const BYTE_BEFORE: u8 = 0x5A;
const ENTRY_BEFORE: u16 = 0xA5A5;

pub struct Host {
    pub group: Group,
    /// Lent to the next events.
    pub buffer: usize,
    pub list: usize,
}

/// What an event gave: its answer, the bytes stored and the slots told.
#[derive(PartialEq, Eq, Debug)]
pub struct Given {
    pub answer: Answer,
    pub bytes: Vec<u8>,
    pub slots: Vec<u16>,
}

/// The whole group by its parts.
#[derive(PartialEq, Eq, Debug)]
pub struct Picture {
    pub epoch: i32,
    pub target_epoch: i32,
    pub last_tick: u32,
    pub topics: Vec<Option<Topic>>,
    pub members: Vec<Option<Member>>,
    pub targets: Vec<Option<u8>>,
}

pub fn picture(group: &Group) -> Picture {
    Picture {
        epoch: group.epoch(),
        target_epoch: group.target_epoch(),
        last_tick: group.last_tick(),
        topics: (0..=255).map(|number| group.topic_at(number)).collect(),
        members: (0..=255).map(|place| group.member_at(place)).collect(),
        targets: (0..=2_047).map(|slot| group.target_of(slot)).collect(),
    }
}

impl Host {
    pub fn new(tick: u32) -> Host {
        Host::with(Group::new(tick))
    }

    pub fn with(group: Group) -> Host {
        Host {
            group,
            buffer: ROOMY,
            list: ALL_SLOTS,
        }
    }

    pub fn heartbeat(&mut self, request: Heartbeat) -> Given {
        self.serve(|group, records, list| group.heartbeat(&request, records, list))
    }

    pub fn sweep(&mut self, tick: u32) -> Given {
        self.serve(|group, records, _| group.sweep(tick, records))
    }

    pub fn topic(&mut self, number: u32, id: Id, count: u32) -> Given {
        self.serve(|group, records, _| group.topic(number, id, count, records))
    }

    pub fn install(&mut self, epoch: i32, entries: &[u8]) -> Given {
        self.serve(|group, records, _| group.install(epoch, entries, records))
    }

    /// The member's present state; it must be there.
    pub fn member(&self, place: u8) -> Member {
        self.group.member_at(place).expect("a member at the place")
    }

    pub fn lend(&mut self, buffer: usize, list: usize) -> &mut Host {
        self.buffer = buffer;
        self.list = list;
        self
    }

    fn serve(&mut self, event: impl Fn(&mut Group, &mut [u8], &mut [u16]) -> Reply) -> Given {
        let before = picture(&self.group);
        let mut records = vec![BYTE_BEFORE; self.buffer];
        let mut list = vec![ENTRY_BEFORE; self.list];
        let Reply { answer, written } = event(&mut self.group, &mut records, &mut list);
        let count = match answer {
            Answer::Assignment { count, .. } => count,
            _ => 0,
        };
        assert!(records[written..].iter().all(|&byte| byte == BYTE_BEFORE));
        assert!(list[count..].iter().all(|&entry| entry == ENTRY_BEFORE));
        if let Answer::Refused(_) = answer {
            assert_eq!(written, 0);
            assert_eq!(before, picture(&self.group));
        }
        Given {
            answer,
            bytes: records[..written].to_vec(),
            slots: list[..count].to_vec(),
        }
    }
}

/// "AA* joins, tick 1000, timeout 300, topic 0."
pub fn join(id: Id, tick: u32) -> Heartbeat<'static> {
    Heartbeat {
        id,
        epoch: 0,
        tick,
        timeout: 300,
        subscription: Some(1),
        owned: Some(&[]),
    }
}

pub fn leave(id: Id, tick: u32) -> Heartbeat<'static> {
    Heartbeat {
        id,
        epoch: -1,
        tick,
        timeout: -1,
        subscription: None,
        owned: None,
    }
}

/// An ordinary heartbeat that gives nothing but, perhaps, a list.
pub fn ordinary(id: Id, epoch: i32, tick: u32, owned: Option<&[u16]>) -> Heartbeat<'_> {
    Heartbeat {
        id,
        epoch,
        tick,
        timeout: -1,
        subscription: None,
        owned,
    }
}

/// Install entries: each slot with its place, all others none.
pub fn entries(places: &[(usize, u8)]) -> Vec<u8> {
    with(&[NONE; ALL_SLOTS], places)
}

/// The same by runs of slots, each to one place.
pub fn runs(places: &[(Range<usize>, u8)]) -> Vec<u8> {
    let mut entries = entries(&[]);
    for (slots, place) in places {
        entries[slots.clone()].fill(*place);
    }
    entries
}

/// The same target with some entries changed.
pub fn with(target: &[u8], changes: &[(usize, u8)]) -> Vec<u8> {
    let mut entries = target.to_vec();
    for &(slot, place) in changes {
        entries[slot] = place;
    }
    entries
}

/// 1006 with a slot.
pub fn bad_target(slot: u16) -> Answer {
    refused(Refusal::BadTarget { slot })
}

pub fn assigned(epoch: i32, count: usize) -> Answer {
    Answer::Assignment {
        epoch,
        interval: 5_000,
        count,
    }
}

pub fn refused(refusal: Refusal) -> Answer {
    Answer::Refused(refusal)
}

/// Bytes from 01's notation: hex pairs, "AA* is sixteen times AA".
pub fn hex(text: &str) -> Vec<u8> {
    let mut bytes = Vec::new();
    for word in text.split_whitespace() {
        let pair = word.trim_end_matches('*');
        let byte = u8::from_str_radix(pair, 16).expect("a hex pair");
        bytes.extend(vec![byte; if word.ends_with('*') { 16 } else { 1 }]);
    }
    bytes
}

/// An ID for each number, none of them zero.
pub fn id(number: u8) -> Id {
    let mut id = [0x40; 16];
    id[15] = number;
    id
}

/// Topic 0 with three partitions, AA* a member of timeout 300, the three slots in its target and
/// in its A: the group after P4, at tick 1000.
pub fn after_p4() -> Host {
    let mut host = Host::new(1_000);
    host.topic(0, [0x11; 16], 3);
    host.heartbeat(join(AA, 1_000));
    host.install(1, &entries(&[(0, 0), (1, 0), (2, 0)]));
    let given = host.heartbeat(ordinary(AA, 1, 1_000, None));
    assert_eq!(given.slots, [0, 1, 2]);
    host
}

/// The group after P8, at tick 2000: A of AA* is 0 1, its P is 2, which the target gives to BB*.
pub fn after_p8() -> Host {
    let mut host = after_p4();
    host.heartbeat(join(BB, 2_000));
    host.install(2, &entries(&[(0, 0), (1, 0), (2, 1)]));
    host.heartbeat(ordinary(AA, 1, 2_000, Some(&[0, 1, 2])));
    assert_eq!(host.member(0).revoking, [2]);
    host
}
