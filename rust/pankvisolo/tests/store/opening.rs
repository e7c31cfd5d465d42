//! What stands in the file, and what is found when it is opened again.

use std::fs;
use std::path::Path;

use pankvisolo::journal::{self, Store};
use pankvisolo::{Answer, Group, Refusal};

use super::folder::Folder;
use super::host::*;
use super::morning::{after, file_after, play, BEFORE, ROWS};

/// The tick of every reading here, unlike that of any event.
const LATER: u32 = 77_000;

#[test]
fn after_each_event_of_the_morning_the_file_has_its_batch() {
    let folder = Folder::new("morning");
    let path = folder.file("group.journal");
    let mut store = Store::open(&path, 1_000).unwrap();
    assert_eq!(fs::read(&path).unwrap(), b"GRJ1");
    assert!(*store.group() == Group::new(1_000));
    let mut host = Host::new(1_000);
    for (index, (name, answer, slots, _)) in ROWS.iter().enumerate() {
        let mut list = [BEFORE; ALL_SLOTS];
        assert_eq!(
            play(&mut store, name, &mut list).unwrap(),
            *answer,
            "{name}"
        );
        assert_eq!(list[..slots.len()], **slots, "{name}");
        assert!(list[slots.len()..].iter().all(|&entry| entry == BEFORE));
        assert_eq!(fs::read(&path).unwrap(), file_after(index + 1), "{name}");
        play_on(&mut host, name);
        assert!(*store.group() == host.group, "{name}");
    }
}

/// The same events on a group alone.
fn play_on(host: &mut Host, name: &str) {
    match name {
        "P1" => host.topic(0, [0x11; 16], 3),
        "P2" => host.heartbeat(join(AA, 1_000)),
        "P3" => host.install(1, &entries(&[(0, 0), (1, 0), (2, 0)])),
        "P4" => host.heartbeat(ordinary(AA, 1, 1_000, None)),
        "P5" => host.heartbeat(join(BB, 2_000)),
        "P6" | "P12" => host.install(2, &entries(&[(0, 0), (1, 0), (2, 1)])),
        "P7" | "P11" => host.heartbeat(ordinary(BB, 2, 2_000, Some(&[]))),
        "P8" => host.heartbeat(ordinary(AA, 1, 2_000, Some(&[0, 1, 2]))),
        "P9" => host.heartbeat(ordinary(AA, 1, 2_000, None)),
        _ => host.heartbeat(ordinary(AA, 1, 2_000, Some(&[0, 1]))),
    };
}

/// "Reading it gives the group that wrote it, but every last-heard tick, the tick P was set and the
/// last tick become the tick of reading."
fn at_reading(group: &Group) -> Picture {
    let mut picture = picture(group);
    picture.last_tick = LATER;
    for member in picture.members.iter_mut().flatten() {
        member.heard = LATER;
        member.revoked_at = LATER;
    }
    picture
}

#[test]
fn opened_again_after_any_event_it_has_the_same_group() {
    let folder = Folder::new("again");
    for rows in 0..=ROWS.len() {
        let path = folder.file(&format!("after {rows}"));
        let store = after(rows, &path);
        let written = at_reading(store.group());
        drop(store);
        let store = Store::open(&path, LATER).unwrap();
        assert_eq!(picture(store.group()), written);
        assert_eq!(fs::read(&path).unwrap(), file_after(rows));
    }
}

#[test]
fn opened_again_before_each_event_it_goes_on_as_before() {
    let folder = Folder::new("on");
    let path = folder.file("group.journal");
    for (index, (name, answer, slots, _)) in ROWS.iter().enumerate() {
        let tick = if index < 4 { 1_000 } else { 2_000 };
        let mut store = Store::open(&path, tick).unwrap();
        let mut list = [BEFORE; ALL_SLOTS];
        assert_eq!(
            play(&mut store, name, &mut list).unwrap(),
            *answer,
            "{name}"
        );
        assert_eq!(list[..slots.len()], **slots, "{name}");
        assert_eq!(fs::read(&path).unwrap(), file_after(index + 1), "{name}");
    }
}

/// "we cut a torn tail off before we store again".
#[test]
fn a_torn_tail_is_cut_off_at_every_byte() {
    let folder = Folder::new("torn");
    let path = folder.file("group.journal");
    let whole = file_after(11);
    let ends: Vec<usize> = (0..=11).map(|rows| file_after(rows).len()).collect();
    for cut in 0..=whole.len() {
        fs::write(&path, &whole[..cut]).unwrap();
        let end = ends.iter().rev().find(|&&end| end <= cut).copied();
        let good = &whole[..end.unwrap_or(4)];
        let mut store = Store::open(&path, LATER).unwrap();
        assert_eq!(fs::read(&path).unwrap(), good, "cut at {cut}");
        assert!(*store.group() == journal::read(good, LATER).group);
        let made = store.topic(1, [0x22; 16], 1).unwrap();
        assert_eq!(made, Answer::Done);
        let gone_on = [good, &hex("13 04 01 22* 01")].concat();
        assert_eq!(fs::read(&path).unwrap(), gone_on, "cut at {cut}");
    }
}

/// A list that is too short for the slots, and one longer than any.
#[test]
fn a_lent_list_counts_as_it_does_for_a_group() {
    let folder = Folder::new("lists");
    let path = folder.file("group.journal");
    let mut store = after(3, &path);
    let beat = ordinary(AA, 1, 1_000, None);
    let mut list = [BEFORE; 2];
    let answer = store.heartbeat(&beat, &mut list).unwrap();
    assert_eq!(answer, refused(Refusal::Room));
    assert_eq!(
        (list, fs::read(&path).unwrap()),
        ([BEFORE; 2], file_after(3))
    );
    let mut list = [BEFORE; 2_000];
    let answer = store.heartbeat(&beat, &mut list).unwrap();
    assert_eq!(
        (answer, &list[..4]),
        (assigned(1, 3), &[0, 1, 2, BEFORE][..])
    );
    assert_eq!(fs::read(&path).unwrap(), file_after(4));
}

#[test]
fn a_journal_may_be_a_link_to_one() {
    let folder = Folder::new("link");
    let path = folder.with("there", &file_after(5));
    let link = folder.file("here");
    std::os::unix::fs::symlink(&path, &link).unwrap();
    let mut store = Store::open(&link, LATER).unwrap();
    play(&mut store, "P6", &mut []).unwrap();
    assert_eq!(fs::read(Path::new(&path)).unwrap(), file_after(6));
}
