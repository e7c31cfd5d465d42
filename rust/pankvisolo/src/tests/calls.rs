//! What crosses beside the group, as declared here, against what the archive reads and writes: every
//! field of a request and of a reply, and every other parameter. The bytes of the numbers differ, so
//! that none of them can stand where another should.

use std::array;

use crate::ffi::{self, Group, Id, Reply, Request};
use crate::ids;
use crate::journal::HEADING;

const MEMBER: [u8; 16] = *b"0123456789abcdef";
const TICK: u32 = 0x0102_0304;
const EPOCH: u32 = 0x0506_0708;
const TIMEOUT: u32 = 0x0009_0A0B;
/// Topics 0 to 4, which have the slots of the target, and two that there are not.
const SUBSCRIPTION: u16 = 0x0C1F;
const SLOTS: u16 = 0x010D;
const NO_SLOT: u16 = 65_535;

/// With a member at place 0 that holds nothing, and the first slots for it.
fn group() -> Group {
    let mut group = ffi::fresh(TICK);
    group.epoch = EPOCH;
    group.target_epoch = EPOCH;
    for (number, count) in [64, 64, 64, 64, 13].into_iter().enumerate() {
        group.topic_ids[number] = [number as u8 + 1; 16];
        group.topic_counts[number] = count;
    }
    for (column, word) in group.member_ids.iter_mut().zip(ids::words(MEMBER)) {
        column[0] = word;
    }
    group.member_epochs[0] = EPOCH;
    group.subscriptions[0] = SUBSCRIPTION.into();
    group.timeouts[0] = TIMEOUT;
    group.heard[0] = TICK;
    group.revoked_at[0] = TICK;
    group.target[..usize::from(SLOTS)].fill(0);
    group
}

/// The same, before its target is installed.
fn group_without_target() -> Group {
    let mut group = group();
    group.target_epoch = EPOCH - 1;
    group.target.fill(ffi::NO_PLACE);
    group
}

fn join() -> Request {
    Request {
        id: MEMBER,
        epoch: 0,
        tick: TICK,
        timeout: TIMEOUT as i32,
        has_subscription: true,
        subscription: SUBSCRIPTION,
        has_list: true,
    }
}

/// Gives neither a subscription nor a list.
fn beat() -> Request {
    Request {
        epoch: EPOCH as i32,
        timeout: -1,
        has_subscription: false,
        has_list: false,
        ..join()
    }
}

fn send(group: &mut Group, request: Request, owned: &[u16]) -> Reply {
    ffi::heartbeat(group, &request, owned, &mut [0; 4_096], &mut [0; 1_024])
}

fn install(mut group: Group, epoch: u32, entries: &[u8]) -> Reply {
    ffi::install(&mut group, epoch as i32, entries, &mut [0; 4_096])
}

/// In the order of the declaration.
fn fields(reply: &Reply) -> (u32, u32, i64, u32, u16, usize) {
    (
        reply.number,
        reply.interval,
        reply.epoch,
        reply.count,
        reply.slot,
        reply.written,
    )
}

/// The number with each of its bytes changed in turn.
fn near(number: u32) -> [u32; 4] {
    array::from_fn(|byte| number ^ 1 << (8 * byte))
}

#[test]
fn a_join_stores_id_tick_timeout_and_subscription() {
    let mut group = ffi::fresh(TICK - 1);
    send(&mut group, join(), &[]);
    assert_eq!((group.tick, group.heard[0]), (TICK, TICK));
    assert_eq!(group.member_ids.map(|column| column[0]), ids::words(MEMBER));
    assert_eq!(group.timeouts[0], TIMEOUT);
    assert_eq!(group.subscriptions[0], SUBSCRIPTION.into());
}

#[test]
fn the_epoch_of_a_request_is_compared_with_the_members() {
    let at = |epoch| send(&mut group(), Request { epoch, ..beat() }, &[]);
    assert_eq!(at(EPOCH as i32).number, 0);
    for other in near(EPOCH) {
        assert_eq!(at(other as i32).number, 110, "{other:x}");
    }
    assert_eq!(at(-1).epoch, -1);
    assert_eq!(at(-2).number, 42);
}

/// Each flag alone decides whether what goes with it counts.
#[test]
fn a_subscription_and_a_list_count_where_their_flags_say_so() {
    let (subscription, not_held) = (SUBSCRIPTION ^ 0x0100, [SLOTS]);
    let with = |has_subscription, has_list| {
        let request = Request {
            has_subscription,
            subscription,
            has_list,
            ..beat()
        };
        let mut group = group();
        let reply = send(&mut group, request, &not_held);
        (reply.number, group.subscriptions[0])
    };
    assert_eq!(with(false, false), (0, SUBSCRIPTION.into()));
    assert_eq!(with(true, false), (0, subscription.into()));
    assert_eq!(with(false, true), (42, SUBSCRIPTION.into()));
}

#[test]
fn every_field_of_a_reply_is_where_it_is_declared() {
    let epoch = i64::from(EPOCH);
    let count = u32::from(SLOTS);
    // 8, place, four bytes of E; the size of A in two and a byte for each slot; the size of P.
    let written = 2 + 4 + 2 + usize::from(SLOTS) + 1;
    let told = send(&mut group(), beat(), &[]);
    assert_eq!(fields(&told), (0, 5_000, epoch, count, NO_SLOT, written));

    // 8, 7 and 5, each with the place and 0; then 3 and four bytes of G.
    let leave = Request {
        epoch: -1,
        ..beat()
    };
    let left = send(&mut group(), leave, &[]);
    assert_eq!(fields(&left), (0, 0, -1, 0, NO_SLOT, 14));

    let swept = ffi::sweep(&mut group(), TICK + 45_000, &mut [0; 4_096]);
    assert_eq!(fields(&swept), (0, 0, 0, 1, NO_SLOT, 14));

    let mut entries = group().target;
    entries[usize::from(SLOTS)] = 1;
    let refused = install(group_without_target(), EPOCH, &entries);
    assert_eq!(fields(&refused), (1006, 0, 0, 0, SLOTS, 0));
}

#[test]
fn ticks_are_taken_whole() {
    assert_eq!(ffi::fresh(TICK).tick, TICK);
    let mut group = ffi::fresh(0);
    ffi::sweep(&mut group, TICK, &mut []);
    assert_eq!(group.tick, TICK);
}

#[test]
fn a_topic_has_the_number_the_id_and_the_count_that_were_given() {
    let make = |number, count| {
        let (mut group, id) = (ffi::fresh(TICK), Id { bytes: MEMBER });
        let reply = ffi::set_topic(&mut group, number, id, count, &mut [0; 4_096]);
        (reply.number, group)
    };
    let (number, group) = make(13, 42);
    assert_eq!(number, 0);
    assert_eq!((group.topic_ids[13], group.topic_counts[13]), (MEMBER, 42));
    // The bytes above the lowest count too.
    for byte in 1..4 {
        let high = 1 << (8 * byte);
        assert_eq!(make(13 | high, 42).0, 1007);
        assert_eq!(make(13, 42 | high).0, 1007);
    }
}

#[test]
fn an_install_has_the_epoch_and_the_entries_that_were_given() {
    let entries = group().target;
    let mut installed = group_without_target();
    let reply = ffi::install(&mut installed, EPOCH as i32, &entries, &mut [0; 4_096]);
    assert_eq!(reply.number, 0);
    assert_eq!(installed.target, entries);
    assert_eq!(installed.target_epoch, EPOCH);
    for other in near(EPOCH) {
        let reply = install(group_without_target(), other, &entries);
        assert_eq!(reply.number, 1004, "{other:x}");
    }
    let short = install(group_without_target(), EPOCH, &entries[1..]);
    assert_eq!((short.number, short.slot), (1006, NO_SLOT));
}

/// The target of the group is the one: its only member has every slot that there is.
#[test]
fn a_range_target_has_an_entry_for_each_slot() {
    assert_eq!(ffi::range_target(&group()), group().target);
    assert_eq!(ffi::range_target(&group_without_target()), group().target);
    assert_eq!(
        ffi::range_target(&ffi::fresh(0)),
        [ffi::NO_PLACE; ffi::SLOTS]
    );
}

/// Of the list the slots that were lent are read, and no more.
#[test]
fn a_list_of_owned_slots_is_read_to_its_end() {
    let mut holding = group();
    send(&mut holding, beat(), &[]);
    let slots: Vec<u16> = (0..=SLOTS).collect();
    let listing = |owned| {
        let request = Request {
            has_list: true,
            ..beat()
        };
        send(&mut holding.clone(), request, owned).number
    };
    let (held, one_more) = (&slots[..usize::from(SLOTS)], &slots[..]);
    assert_eq!((listing(held), listing(one_more)), (0, 42));
    assert_eq!(listing(&held[7..]), 0);
}

/// Every tick of the group that is read is the one given, and the bytes are read to their end.
#[test]
fn a_journal_has_the_tick_and_the_bytes_that_were_given() {
    let file = [&b"GRJ1\x13\x04\x05"[..], &MEMBER, &[7]].concat();
    let mut read = group();
    let reading = ffi::read_journal(&mut read, TICK, &file);
    assert_eq!((reading.verdict, reading.end), (ffi::WHOLE, 24));
    // Nothing is left of the group that was there.
    assert_eq!((read.tick, read.epoch, read.target_epoch), (TICK, 0, 0));
    assert_eq!(read.member_ids, [[0; ffi::PLACES]; 4]);
    assert_eq!((read.topic_ids[5], read.topic_counts[5]), (MEMBER, 7));
    assert_eq!(read.topic_counts.iter().sum::<u8>(), 7);
    assert_eq!(read.target, [ffi::NO_PLACE; ffi::SLOTS]);

    let reading = ffi::read_journal(&mut read, !TICK, &file[..23]);
    assert_eq!((reading.verdict, reading.end), (ffi::TORN, 4));
    assert_eq!((read.tick, read.topic_counts), (!TICK, [0; ffi::TOPICS]));
    // A large offset, of which no byte is 0.
    let long = [&file[..], &[0; 0x0102_0304]].concat();
    let reading = ffi::read_journal(&mut read, TICK, &long);
    assert_eq!((reading.verdict, reading.end), (ffi::REFUSED, 24));
}

#[test]
fn the_next_batch_stands_where_it_was_looked_for() {
    let mut bytes = vec![0x81; 0x0102_0304];
    let at = bytes.len();
    bytes.extend([0xAD, 0x02]);
    bytes.extend([9; 0x012D]);
    let next = |bytes: &[u8], at| {
        let batch = ffi::next_batch(bytes, at);
        (batch.verdict, batch.start, batch.end)
    };
    assert_eq!(next(&bytes, at), (ffi::BATCH, at + 2, at + 2 + 0x012D));
    let end = bytes.len();
    assert_eq!(next(&bytes, end), (ffi::WHOLE, end, end));
    assert_eq!(next(&bytes, usize::MAX).0, ffi::WHOLE);
    assert_eq!(next(&bytes[..end - 1], at), (ffi::TORN, at, at));
    assert_eq!(next(&bytes[..at + 1], at), (ffi::TORN, at, at));
    assert_eq!(next(&bytes, at - 2), (ffi::REFUSED, at - 2, at - 2));
}

#[test]
fn a_batch_has_the_tick_and_the_records_that_were_given() {
    let topic = [&[4, 13][..], &MEMBER, &[42]].concat();
    let mut read = ffi::fresh(0);
    assert!(ffi::read_batch(&mut read, TICK, &topic));
    assert_eq!((read.tick, read.topic_ids[13]), (TICK, MEMBER));
    assert!(!ffi::read_batch(&mut read, TICK, &topic[..18]));
    let mut read = group_without_target();
    let install = [&[6][..], &[0x88, 0x8E, 0x98, 0x28]].concat();
    assert!(ffi::read_batch(&mut read, !TICK, &install));
    assert_eq!((read.target_epoch, read.epoch), (EPOCH, EPOCH));
    assert_eq!((read.heard[0], read.revoked_at[0]), (!TICK, !TICK));
}

#[test]
fn a_frame_is_a_length_and_the_records_that_were_given() {
    for (size, before) in [
        (1, &[1][..]),
        (127, &[127]),
        (128, &[128, 1]),
        (4_096, &[128, 32]),
    ] {
        let records: Vec<u8> = (0..size).map(|at| at as u8).collect();
        let framed = [before, &records].concat();
        let mut journal = vec![0x5A; framed.len() + 3];
        assert_eq!(ffi::frame(&records, &mut journal), framed.len());
        assert_eq!(journal, [&framed[..], &[0x5A; 3]].concat());
        assert_eq!(
            ffi::frame(&records, &mut journal[..framed.len()]),
            framed.len()
        );
        let short = &mut [0x5A; 4_098][..framed.len() - 1];
        assert_eq!(ffi::frame(&records, short), 0);
        assert!(short.iter().all(|&byte| byte == 0x5A));
    }
    assert_eq!(ffi::frame(&[], &mut [0; 9]), 0);
    assert_eq!(ffi::frame(&[0; 4_097], &mut [0; 5_000]), 0);
}

#[test]
fn the_heading_is_the_one_declared() {
    let mut journal = [0x5A; 6];
    assert_eq!(ffi::put_heading(&mut journal), 4);
    assert_eq!(journal, *b"GRJ1\x5A\x5A");
    assert_eq!(journal[..4], HEADING);
    assert_eq!(ffi::put_heading(&mut [0; 3]), 0);
    assert_eq!(ffi::put_heading(&mut [0; 4]), 4);
}

/// A buffer of just the bytes that the event writes will do, and one of a byte less will not.
fn fills(group: &Group, first: u8, event: impl Fn(&mut Group, &mut [u8]) -> Reply) {
    let event = |records: &mut [u8]| event(&mut group.clone(), records);
    let mut records = [0; 4_096];
    let written = event(&mut records).written;
    assert_eq!(records[0], first);
    assert_eq!(event(&mut records[..written]).number, 0);
    assert_eq!(event(&mut records[..written - 1]).number, 1003);
}

#[test]
fn buffers_and_lists_are_filled_to_their_end() {
    let beat_into = |group: &mut Group, records: &mut [u8], list: &mut [u16]| {
        ffi::heartbeat(group, &beat(), &[], records, list).number
    };
    fills(&group(), 8, |group, records| {
        ffi::heartbeat(group, &beat(), &[], records, &mut [0; 1_024])
    });
    fills(&group(), 8, |group, records| {
        ffi::sweep(group, TICK + 45_000, records)
    });
    fills(&ffi::fresh(0), 4, |group, records| {
        ffi::set_topic(group, 3, Id { bytes: MEMBER }, 5, records)
    });
    fills(&group_without_target(), 7, |before, records| {
        ffi::install(before, EPOCH as i32, &group().target, records)
    });

    let (mut records, mut list) = ([0; 4_096], [0; SLOTS as usize]);
    assert_eq!(beat_into(&mut group(), &mut records, &mut list[1..]), 1003);
    assert_eq!(beat_into(&mut group(), &mut records, &mut list), 0);
    assert!(list.into_iter().eq(0..SLOTS));
}
