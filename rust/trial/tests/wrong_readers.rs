//! The trial of journals can fail: each test alters plain's reader in one way, and it is found out.
//! Those that judge batches otherwise are found out by the second judge too.

use plain::journal::{self, read_batch};
use plain::Group;
use trial::journal::agree::{self, ReadBatch};
use trial::journal::compare::{explore, Plan};
use trial::journal::{Reading, Reads, Verdict};
use trial::reader::{read, Record};
use trial::sides::Reference;
use trial::snapshot::Snapshot;

const PLAN: Plan = Plan {
    seed: 3,
    files: 60_000,
    journal: None,
};
const BATCHES: agree::Plan = agree::Plan {
    seed: 3,
    batches: 300_000,
};

/// Gives plain's heading and frames to a reader.
macro_rules! reader {
    ($name:ident, $read:expr) => {
        struct $name;

        impl Reads for $name {
            type Group = Group;

            const HEADING: [u8; 4] = journal::HEADING;

            fn frame(records: &[u8], out: &mut [u8]) -> Option<usize> {
                journal::frame(records, out)
            }

            fn read(bytes: &[u8], tick: u32) -> Reading<'_, Group> {
                $read(bytes, tick)
            }
        }
    };
}

fn is_found_out<S: Reads>() {
    let report = explore::<S, Reference>(PLAN, |_| ()).err();
    let report = report.expect("a wrong reader passed");
    println!("{report}");
    assert!(report.to_string().contains("FAILED with seed 3, journal "));
}

#[test]
fn nothing_is_found_where_nothing_is_altered() {
    reader!(Right, |bytes, tick| read_with(bytes, tick, read_batch));
    let plan = Plan {
        files: 5_000,
        ..PLAN
    };
    assert!(explore::<Right, Reference>(plan, |_| ()).is_ok());
}

/// Alters what is read.
macro_rules! altered {
    ($($test:ident: $name:ident = $alter:expr;)*) => {
        $(
            #[test]
            fn $test() {
                fn altered(bytes: &[u8], tick: u32) -> Reading<'_, Group> {
                    let mut reading = Reference::read(bytes, tick);
                    let alter: fn(&[u8], u32, &mut Reading<'_, Group>) = $alter;
                    alter(bytes, tick, &mut reading);
                    reading
                }
                reader!($name, altered);
                is_found_out::<$name>();
            }
        )*
    };
}

altered! {
    a_tail_that_is_a_copy: CopiedTail = |_, _, reading| {
        if let Verdict::Torn { tail } = reading.verdict {
            reading.verdict = Verdict::Torn { tail: tail.to_vec().leak() };
        }
    };
    an_end_after_the_length: LateEnd = |_, _, reading| {
        if matches!(reading.verdict, Verdict::Refused { offset } if offset > 0) {
            reading.end += 1;
        }
    };
    a_refusal_called_torn: Torn = |bytes, _, reading| {
        if matches!(reading.verdict, Verdict::Refused { offset } if bytes[offset] == 0) {
            reading.verdict = Verdict::Torn { tail: &[] };
        }
    };
    half_a_length_refused: HalfRefused = |_, _, reading| {
        if matches!(reading.verdict, Verdict::Torn { tail: [128..=255] }) {
            reading.verdict = Verdict::Refused { offset: reading.end };
        }
    };
    half_a_heading_whole: HalfHeading = |bytes, _, reading| {
        if bytes.len() == 3 && reading.end == 0 {
            reading.verdict = Verdict::Whole;
        }
    };
    a_short_wrong_heading_torn: ShortHeading = |bytes, _, reading| {
        if bytes.len() < 4 && matches!(reading.verdict, Verdict::Refused { .. }) {
            reading.verdict = Verdict::Torn { tail: &[] };
        }
    };
    the_tick_p_was_set_left_alone: OldTicks = |_, tick, reading| {
        reading.group.set_ticks_of(3, tick.wrapping_sub(1));
    };
    a_group_of_before_the_last_batch: OneBatchLess = |bytes, tick, reading| {
        if reading.end > 100 && matches!(reading.verdict, Verdict::Torn { .. }) {
            let mut end = reading.end - 1;
            while !matches!(Reference::read(&bytes[..end], tick).verdict, Verdict::Whole) {
                end -= 1;
            }
            reading.group = Reference::read(&bytes[..end], tick).group;
        }
    };
    a_group_of_after_a_refusal_thrown_away: Fresh = |_, tick, reading| {
        if matches!(reading.verdict, Verdict::Refused { .. }) {
            reading.group = Group::new(tick);
        }
    };
}

/// A file by its batches, each judged in another way.
fn read_with(bytes: &[u8], tick: u32, judge: ReadBatch) -> Reading<'_, Group> {
    let mut reading = Reference::read(bytes, tick);
    let mut group = Group::new(tick);
    let mut end = 4;
    if !bytes.starts_with(&journal::HEADING) {
        return reading;
    }
    loop {
        let rest = &bytes[end..];
        let (start, length) = match *rest {
            [first @ 1..128, ..] => (1, usize::from(first)),
            [first, second, ..] if first > 127 && (1..128).contains(&second) => {
                (2, usize::from(first - 128) + 128 * usize::from(second))
            }
            _ => (1, usize::MAX - 1),
        };
        let is_length = length <= 4_096;
        let batch = rest.get(start..).and_then(|rest| rest.get(..length));
        reading.verdict = match (is_length, batch) {
            (true, Some(batch)) if judge(&mut group, tick, batch) => {
                end += start + length;
                continue;
            }
            (true, None) => Verdict::Torn { tail: rest },
            _ if rest.is_empty() => Verdict::Whole,
            _ if rest.len() == 1 && rest[0] > 127 => Verdict::Torn { tail: rest },
            _ => Verdict::Refused { offset: end },
        };
        (reading.group, reading.end) = (group, end);
        return reading;
    }
}

/// Judges batches in another way than plain.
macro_rules! judged {
    ($($test:ident: $name:ident = $judge:expr;)*) => {
        $(
            #[test]
            fn $test() {
                const JUDGE: ReadBatch = $judge;
                reader!($name, |bytes, tick| read_with(bytes, tick, JUDGE));
                is_found_out::<$name>();
                let outcome = agree::explore(BATCHES, JUDGE, |_| ());
                println!("{}", outcome.err().expect("the second judge passed it"));
            }
        )*
    };
}

judged! {
    a_topic_stored_again: TopicAgain = |group, tick, batch| {
        read_batch(group, tick, batch) || is(batch, |records| match records {
            [Record::Topic { number, id, count }] => group
                .topic_at(*number)
                .is_some_and(|known| known.id == *id && u32::from(known.count) == *count),
            _ => false,
        })
    };
    a_member_stored_unchanged: MemberAgain = |group, tick, batch| {
        read_batch(group, tick, batch) || is(batch, |records| match records {
            [Record::Member { place, id, timeout, subscription }] => group
                .member_at(*place)
                .is_some_and(|known| known.id == *id
                    && known.timeout == *timeout
                    && u32::from(known.subscription) == *subscription),
            _ => false,
        })
    };
    an_assignment_stored_unchanged: AssignmentAgain = |group, tick, batch| {
        read_batch(group, tick, batch) || is(batch, |records| match records {
            [Record::Assignment { place, epoch, assigned, revoking }] => group
                .member_at(*place)
                .is_some_and(|known| known.epoch as u32 == *epoch
                    && known.assigned == *assigned
                    && known.revoking == *revoking),
            _ => false,
        })
    };
    a_sweep_of_one_alone: SweepsOne = |group, tick, batch| {
        let is_several = |records: &[Record]| {
            let gone = |record: &&Record| matches!(record, Record::MemberGone { .. });
            records.iter().filter(gone).count() > 1
        };
        !is(batch, is_several) && read_batch(group, tick, batch)
    };
    a_join_that_subscribes_to_nothing_refused: NoSubscription = |group, tick, batch| {
        !is(batch, |records| matches!(
            records,
            [.., Record::Member { subscription: 0, .. }, Record::GroupEpoch(_), Record::Assignment { .. }]
        )) && read_batch(group, tick, batch)
    };
    a_timeout_while_p_waits_refused: WaitsForList = |group, tick, batch| {
        !is(batch, |records| match records {
            [Record::Member { place, .. }] => group
                .member_at(*place)
                .is_some_and(|known| !known.revoking.is_empty()),
            _ => false,
        }) && read_batch(group, tick, batch)
    };
    an_install_that_changes_nothing_refused: NothingInstalled = |group, tick, batch| {
        !is(batch, |records| matches!(records, [Record::TargetEpoch(_)]))
            && read_batch(group, tick, batch)
    };
    an_install_that_leaves_slots_refused: NoneLeft = |group, tick, batch| {
        judged_after(group, tick, batch, |after| Snapshot::of(after).holes().is_empty())
    };
    an_install_that_leaves_all_slots_refused: NotAllLeft = |group, tick, batch| {
        judged_after(group, tick, batch, |after| {
            let after = Snapshot::of(after);
            let wanted = after.wanted().count();
            wanted == 0 || after.holes().len() < wanted
        })
    };
    a_freed_slot_back_at_once_refused: NotBack = |group, tick, batch| {
        !is(batch, |records| match records {
            [Record::Assignment { place, assigned, .. }] => group
                .member_at(*place)
                .is_some_and(|known| assigned.iter().any(|slot| known.revoking.contains(slot))),
            _ => false,
        }) && read_batch(group, tick, batch)
    };
    the_tick_of_reading_not_taken_by_others: OneTick = |group, tick, batch| {
        let is_good = read_batch(group, tick, batch);
        if is_good {
            group.set_ticks_of(0, tick.wrapping_add(1));
        }
        is_good
    };
}

/// As plain does, but an install must leave a group of which this holds.
fn judged_after(
    group: &mut Group,
    tick: u32,
    batch: &[u8],
    holds: impl Fn(&Group) -> bool,
) -> bool {
    let mut after = group.clone();
    let is_install = is(batch, |records| {
        matches!(records, [.., Record::TargetEpoch(_)])
    });
    let is_good = read_batch(&mut after, tick, batch) && (!is_install || holds(&after));
    if is_good {
        *group = after;
    }
    is_good
}

fn is(batch: &[u8], what: impl Fn(&[Record]) -> bool) -> bool {
    read(batch).is_ok_and(|records| what(&records))
}
