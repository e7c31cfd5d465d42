//! Request 1, the batches: what some event would write is read, and its neighbours are refused.

use super::host::*;
use super::story::*;
use crate::coordinator::{journal, Heartbeat};

#[test]
fn topics() {
    let story = Story::of_p8();
    // Nobody subscribes to topic 1, and so G stays.
    story.reads("04 01 22* 40");
    story.reads("04 0F 22* 01");
    story.refuses("04 01 22* 40 03 03");
    story.refuses("04 01 22* 00");
    story.refuses("04 01 22* 41");
    story.refuses("04 10 22* 01");
    story.refuses("04 01 00* 01");
    story.refuses("04 01 11* 01");
    // Topic 0 has three partitions, and members.
    let group = story.reads("04 00 11* 04 03 03");
    assert_eq!(group.epoch(), 3);
    assert_eq!(group.topic_at(0).map(|topic| topic.count), Some(4));
    story.refuses("04 00 11* 04");
    story.refuses("04 00 11* 04 03 02");
    story.refuses("04 00 11* 04 03 04");
    story.refuses("04 00 11* 03 03 03");
    story.refuses("04 00 11* 03");
    story.refuses("04 00 11* 02 03 03");
    story.refuses("04 00 22* 04 03 03");
    story.refuses("03 03 04 00 11* 04");
    story.refuses("04 00 11* 04 03 03 03 04");
    story.refuses("04 01 22* 01 04 02 33* 01");
}

/// As after P8, but G = 3: topic 0 has a fourth partition.
fn not_installed() -> Story {
    let mut story = Story::of_p8();
    story.play(|host| host.topic(0, [0x11; 16], 4));
    story
}

#[test]
fn installs() {
    Story::of_p8().refuses("06 02");
    let story = not_installed();
    let group = story.reads("06 03");
    assert_eq!(group.target_epoch(), 3);
    assert_eq!(group.target_of(2), Some(1));
    story.refuses("06 02");
    story.refuses("06 04");
    story.refuses("06 03 06 03");
    let group = story.reads("07 00 01 02 07 01 02 00 01 06 03");
    assert_eq!(group.target_of(0), Some(1));
    assert_eq!(group.target_of(1), Some(1));
    assert_eq!(group.target_of(2), Some(0));
    story.reads("07 00 00 07 01 00 06 03");
    story.reads("07 01 02 02 01 06 03");
    // A set that has not changed, places that don't rise, a free place, and one beyond 31.
    story.refuses("07 00 02 00 01 06 03");
    story.refuses("07 01 02 00 01 07 00 01 02 06 03");
    story.refuses("07 00 00 07 00 01 00 06 03");
    story.refuses("07 02 01 03 06 03");
    story.refuses("07 02 00 06 03");
    story.refuses("07 20 01 03 06 03");
    // A slot in two targets, of which one stayed; one that is not there.
    story.refuses("07 01 02 01 01 06 03");
    story.refuses("07 00 03 00 01 01 06 03");
    story.refuses("07 01 02 02 02 06 03");
    story.refuses("07 01 01 40 06 03");
    // Without its 6, with more before or after it.
    story.refuses("07 00 00");
    story.refuses("07 00 00 06 03 03 04");
    story.refuses("03 04 06 03");
    story.refuses("06 03 07 00 00");
}

/// 1006 tries every entry, so targets that stay must be good as well.
#[test]
fn an_install_is_refused_for_what_stays_in_it() {
    let mut story = Story::of_p8();
    story.play(|host| host.topic(1, [0x22; 16], 1));
    story.play(|host| {
        let beat = ordinary(AA, 1, 2_000, None);
        host.heartbeat(Heartbeat {
            subscription: Some(2),
            ..beat
        })
    });
    story.refuses("06 03");
    story.refuses("07 01 00 06 03");
    story.refuses("07 00 01 00 06 03");
    story.reads("07 00 00 06 03");
    story.reads("07 00 01 40 06 03");
    story.reads("07 00 01 40 07 01 03 00 01 01 06 03");
    story.refuses("07 00 00 07 01 02 02 3E 06 03");
}

/// "Journals are read without this rule": request 3 refuses each of these installs.
#[test]
fn installs_with_slots_left_over() {
    // Topic 0 has four partitions, all of them wanted.
    let story = not_installed();
    let epoch = story.host.group.epoch();
    let refused = |places: &[(usize, u8)], slot| {
        let given = not_installed().host.install(epoch, &entries(places));
        assert_eq!(given.answer, bad_target(slot));
    };
    for (batch, places, slot) in [
        ("06 03", &[(0, 0), (1, 0), (2, 1)][..], 3),
        ("07 00 01 01 06 03", &[(1, 0), (2, 1)], 0),
        ("07 00 01 00 07 01 01 03 06 03", &[(0, 0), (3, 1)], 1),
        (
            "07 00 03 00 01 02 07 01 00 06 03",
            &[(0, 0), (1, 0), (3, 0)],
            2,
        ),
        ("07 00 00 07 01 00 06 03", &[], 0),
    ] {
        refused(places, slot);
        let group = story.reads(batch);
        assert_eq!(group.target_epoch(), epoch, "{batch}");
        for slot in 0..4 {
            let place = places.iter().find(|(owned, _)| *owned == slot);
            let target = group.target_of(slot as u16);
            assert_eq!(target, place.map(|(_, place)| *place), "{batch}");
        }
    }
    // What 01 has against an install still is against it.
    story.refuses("07 01 01 04 06 03");
    story.refuses("07 02 01 03 06 03");
}

#[test]
fn reading_goes_on_after_slots_left_over() {
    let mut story = not_installed();
    story.finds("07 00 01 00 07 01 00 06 03");
    // AA* frees its P and gives 1 back; slots 1 to 3 are nobody's.
    story
        .finds("08 00 01 01 00 01 01")
        .finds("08 00 03 01 00 00");
    let bb = story.host.heartbeat(ordinary(BB, 2, READ_AT, Some(&[])));
    assert_eq!(
        (bb.answer, bb.bytes),
        (assigned(3, 0), hex("08 01 03 00 00"))
    );
    story.finds("08 01 03 00 00");
    story.finds("04 00 11* 05 03 04").finds("06 04");
    story
        .finds("08 00 00 07 00 00 05 00 00 03 05")
        .finds("06 05");
    let reading = journal::read(&story.file, READ_AT);
    assert_eq!((reading.end, picture(&reading.group)), *story.last());
    // The rule is back with the next install.
    let mut host = Host::with(reading.group);
    host.heartbeat(join(AA, READ_AT));
    assert_eq!(host.install(6, &entries(&[])).answer, bad_target(0));
    let given = host.install(6, &runs(&[(0..5, 1)]));
    assert_eq!(given.bytes, hex("07 01 05 00 01 01 01 01 06 06"));
}

#[test]
fn leaves_and_sweeps() {
    let story = Story::of_p8();
    let group = story.reads("08 00 00 07 00 00 05 00 00 03 03");
    assert!(group.member_at(0).is_none());
    assert_eq!(group.target_of(0), None);
    assert_eq!(group.target_of(2), Some(1));
    let both = "08 00 00 07 00 00 05 00 00 08 01 00 07 01 00 05 01 00 03 03";
    let group = story.reads(both);
    assert!((0..32).all(|place| group.member_at(place).is_none()));
    story.reads("08 01 00 07 01 00 05 01 00 03 03");
    story.refuses("08 01 00 07 01 00 05 01 00 08 00 00 07 00 00 05 00 00 03 03");
    story.refuses("08 00 00 07 00 00 05 00 00 08 00 00 07 00 00 05 00 00 03 03");
    story.refuses("08 00 00 07 00 00 05 00 00 03 03 08 01 00 07 01 00 05 01 00 03 04");
    story.refuses("08 00 00 07 00 00 05 00 00");
    story.refuses("08 00 00 07 00 00 05 00 00 03 04");
    story.refuses("08 00 00 05 00 00 03 03");
    story.refuses("08 00 00 07 00 01 00 05 00 00 03 03");
    story.refuses("08 00 00 07 01 00 05 00 00 03 03");
    story.refuses("08 00 00 07 00 00 05 01 00 03 03");
    story.refuses("08 00 00 07 00 00 03 03");
    story.refuses("07 00 00 05 00 00 03 03");
    story.refuses("05 00 00 03 03");
    story.refuses("08 02 00 05 02 00 03 03");
    story.refuses("08 20 00 05 20 00 03 03");
    // A member without a target.
    let mut story = Story::of_p8();
    story.play(|host| host.heartbeat(join(id(7), 2_000)));
    story.reads("08 02 00 05 02 00 03 04");
    story.refuses("08 02 00 07 02 00 05 02 00 03 04");
}

#[test]
fn joins() {
    let story = Story::of_p8();
    let group = story.reads("05 02 01 CC* 01 00 03 03 08 02 03 00 00");
    let joiner = group.member_at(2).expect("CC*");
    assert_eq!(
        (joiner.epoch, joiner.timeout, joiner.subscription),
        (3, 1, 0)
    );
    story.reads("05 02 01 CC* C0 EE 6D FF FF 03 03 03 08 02 03 00 00");
    story.refuses("05 02 01 CC* C1 EE 6D 01 03 03 08 02 03 00 00");
    story.refuses("05 02 01 CC* 00 01 03 03 08 02 03 00 00");
    story.refuses("05 02 01 CC* 01 80 80 04 03 03 08 02 03 00 00");
    story.refuses("05 02 01 00* 01 01 03 03 08 02 03 00 00");
    story.refuses("05 03 01 CC* 01 01 03 03 08 03 03 00 00");
    story.refuses("05 02 01 CC* 01 01 03 03 08 03 03 00 00");
    story.refuses("05 02 01 CC* 01 01 03 03 08 02 02 00 00");
    story.refuses("05 02 01 CC* 01 01 03 02 08 02 02 00 00");
    story.refuses("05 02 01 CC* 01 01 03 03 08 02 03 01 02 00");
    story.refuses("05 02 01 CC* 01 01 03 03 08 02 03 00 01 02");
    story.refuses("05 02 01 CC* 01 01 08 02 03 00 00");
    story.refuses("05 02 01 CC* 01 01 03 03");
    story.refuses("07 02 00 05 02 01 CC* 01 01 03 03 08 02 03 00 00");
    story.refuses("05 01 01 CC* 01 01 03 03 08 01 03 00 00");
}

#[test]
fn rejoins() {
    let story = Story::of_p8();
    let group = story.reads("07 00 00 05 00 01 AA* 01 01 03 03 08 00 03 00 00");
    let again = group.member_at(0).expect("AA*");
    assert_eq!(
        (again.assigned, again.revoking, again.timeout),
        (vec![], vec![], 1)
    );
    assert_eq!(group.target_of(0), None);
    story.reads("07 00 00 05 00 01 AA* AC 02 01 03 03 08 00 03 00 00");
    story.refuses("05 00 01 AA* 01 01 03 03 08 00 03 00 00");
    story.refuses("07 01 00 05 00 01 AA* 01 01 03 03 08 00 03 00 00");
    story.refuses("07 00 01 00 05 00 01 AA* 01 01 03 03 08 00 03 00 00");
    story.refuses("07 02 00 05 02 01 AA* 01 01 03 03 08 02 03 00 00");
    story.refuses("05 02 01 AA* 01 01 03 03 08 02 03 00 00");
    story.refuses("07 01 00 05 01 01 AA* 01 01 03 03 08 01 03 00 00");
    // Without a target.
    let mut story = Story::of_p8();
    story.play(|host| host.heartbeat(join(id(7), 2_000)));
    story.play(|host| host.heartbeat(join(id(7), 2_000)));
    assert_eq!(story.host.group.epoch(), 4);
    story.play(|host| host.install(4, &runs(&[(0..3, 1)])));
    story.refuses("07 00 00 05 00 01 AA* 01 01 03 05 08 00 05 00 00");
    story.reads("05 00 01 AA* 01 01 03 05 08 00 05 00 00");
}

/// With P empty step 3 always runs, so that there is one 8 or none.
#[test]
fn ordinary_heartbeats_with_p_empty() {
    let mut story = Story::of_p4();
    // Nothing is left to do: no 8.
    story.reads("05 00 01 AA* AD 02 01");
    story.reads("05 00 01 AA* AC 02 03 03 02");
    story.reads("05 00 01 AA* 01 00 03 02");
    story.refuses("05 00 01 AA* AC 02 01");
    story.refuses("05 00 01 AA* AD 02 01 03 02");
    story.refuses("05 00 01 AA* AC 02 03");
    story.refuses("05 00 01 AA* AC 02 03 03 03");
    story.refuses("05 00 01 AA* 00 01");
    story.refuses("05 00 01 AA* C1 EE 6D 01");
    story.refuses("05 00 01 AB* AD 02 01");
    story.refuses("05 01 01 AA* AD 02 01");
    story.refuses("03 02");
    story.refuses("08 00 01 03 00 01 01 00");
    story.refuses("05 00 01 AA* AD 02 01 08 00 01 03 00 01 01 00");
    // BB* joins: E = 2, T = 1. Then P6 takes slot 2 from AA*, and AA* must move it.
    story.play(|host| host.heartbeat(join(BB, 2_000)));
    story.refuses("08 01 01 00 00");
    story.reads("05 01 01 BB* AD 02 01");
    story.play(|host| host.install(2, &entries(&[(0, 0), (1, 0), (2, 1)])));
    story.reads("08 00 01 02 00 01 01 02");
    story.reads("05 00 01 AA* AD 02 01 08 00 01 02 00 01 01 02");
    story.reads("05 00 01 AA* AC 02 00 03 03 08 00 01 02 00 01 01 02");
    story.refuses("05 00 01 AA* AD 02 01");
    story.refuses("05 00 01 AA* AC 02 00 03 03");
    story.refuses("03 03 08 00 01 02 00 01 01 02");
    story.refuses("05 00 01 AA* AD 02 01 08 01 01 02 00 01 01 02");
    story.refuses("08 00 02 02 00 01 01 02");
    story.refuses("08 00 01 02 00 01 00");
    story.refuses("08 00 01 02 00 02 01 01");
    story.refuses("08 00 01 00 03 00 01 01");
    // BB* is at T, and its slot is held.
    story.refuses("08 01 02 01 02 00");
    story.reads("05 01 01 BB* AD 02 01");
    story.refuses("08 01 02 00 00");
}

/// With P waiting there is no 8, or the one after all of P was freed.
#[test]
fn ordinary_heartbeats_with_p_waiting() {
    let story = Story::of_p8();
    story.reads("05 00 01 AA* AD 02 01");
    story.reads("05 00 01 AA* AC 02 00 03 03");
    let group = story.reads("08 00 02 02 00 01 00");
    assert_eq!(group.member_at(0).map(|aa| aa.epoch), Some(2));
    story.reads("05 00 01 AA* AD 02 01 08 00 02 02 00 01 00");
    story.refuses("08 00 01 02 00 01 01 02");
    story.refuses("08 00 01 02 00 01 00");
    story.refuses("08 00 02 02 00 01 01 02");
    story.refuses("08 00 02 03 00 01 01 00");
    // The target gives 2 back to AA*, and takes 0: freed and back, freed and moved anew.
    let mut story = not_installed();
    story.play(|host| host.install(3, &entries(&[(0, 0), (1, 0), (2, 0), (3, 1)])));
    story.reads("08 00 03 03 00 01 01 00");
    story.refuses("08 00 03 02 00 01 00");
    let mut story = not_installed();
    story.play(|host| host.install(3, &entries(&[(0, 1), (1, 0), (2, 0), (3, 1)])));
    story.reads("08 00 01 01 01 01 00");
    story.refuses("08 00 01 01 01 02 00 02");
    story.refuses("08 00 01 02 01 01 01 00");
    story.refuses("08 00 03 02 01 01 00");
}

/// "every slot of M that nobody holds enters A": one that another still holds does not.
#[test]
fn a_share_is_taken_but_for_what_others_hold() {
    let mut story = not_installed();
    story.play(|host| host.install(3, &entries(&[(0, 0), (1, 0), (2, 1), (3, 1)])));
    let group = story.reads("08 01 03 01 03 00");
    assert_eq!(group.member_at(1).map(|bb| bb.assigned), Some(vec![3]));
    story.refuses("08 01 03 02 02 01 00");
    story.refuses("08 01 03 00 00");
    story.refuses("08 01 02 01 03 00");
    story.refuses("08 01 04 01 03 00");
    story.refuses("05 01 01 BB* AD 02 01");
    story.reads("05 01 01 BB* AD 02 01 08 01 03 01 03 00");
}

#[test]
fn what_is_no_records() {
    let story = Story::of_p8();
    for batch in [
        "01",
        "09",
        "00",
        "03",
        "08 00 02 02 00 01",
        "08 00 02 02 00 01 00 00",
        "08 00 82 00 02 00 01 00",
        "08 80 00 02 02 00 01 00",
        "08 00 02 82 00 00 01 00",
        "08 00 02 02 80 00 01 00",
        "08 00 02 02 00 81 00 00",
        "05 00 02 AA* AD 02 01",
        "05 00 81 00 AA* AD 02 01",
    ] {
        story.refuses(batch);
    }
}

#[test]
fn thirty_two_members_and_no_more() {
    let mut story = Story::new();
    for number in 1..=32 {
        story.play(|host| host.heartbeat(join(id(number), 1_000)));
    }
    assert_eq!(story.ends.len(), 33);
    let reading = journal::read(&story.file, READ_AT);
    assert_eq!((reading.end, picture(&reading.group)), *story.last());
    story.refuses("05 20 01 CC* 01 01 03 21 08 20 21 00 00");
    // The places of two that left are taken again, the lowest first.
    story.reads("08 03 00 05 03 00 08 1F 00 05 1F 00 03 21");
    story.play(|host| host.heartbeat(leave(id(4), 1_000)));
    story.play(|host| host.heartbeat(leave(id(32), 1_000)));
    story.refuses("05 1F 01 CC* 01 01 03 23 08 1F 23 00 00");
    story.reads("05 03 01 CC* 01 01 03 23 08 03 23 00 00");
}
