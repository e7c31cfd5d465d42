//! "Journals are read without this rule": one in which an install leaves a slot over, as brokers
//! wrote before there was the rule, is read whole and gone on with.

use std::fs;

use pankvisolo::journal::{self, Reader, Store, Verdict};
use pankvisolo::{Answer, Group, Heartbeat, Refusal};

use super::folder::Folder;
use super::host::*;
use super::morning::file_after;

/// P1, P2 and an install in which AA* is to have slots 0 and 1, and nobody slot 2.
fn older() -> Vec<u8> {
    [file_after(2), hex("07 07 00 02 00 01 06 01")].concat()
}

fn targets(group: &Group) -> [Option<u8>; 4] {
    [0, 1, 2, 3].map(|slot| group.target_of(slot))
}

#[test]
fn it_is_read_whole_and_in_parts() {
    let file = older();
    let read = journal::read(&file, 5_000);
    assert_eq!((read.verdict, read.end), (Verdict::Whole, file.len()));
    assert_eq!(read.group.target_epoch(), 1);
    assert_eq!(targets(&read.group), [Some(0), Some(0), None, None]);
    let mut reader = Reader::new(5_000);
    for part in file.chunks(5) {
        reader.push(part);
    }
    assert_eq!((reader.verdict(), reader.end()), (Verdict::Whole, 62));
    assert!(*reader.group() == read.group);
}

/// The answer, and the first two entries of the list after it.
fn told(store: &mut Store, request: Heartbeat) -> (Answer, [u16; 2]) {
    let mut list = [0; ALL_SLOTS];
    let answer = store.heartbeat(&request, &mut list).unwrap();
    (answer, [list[0], list[1]])
}

#[test]
fn it_is_gone_on_with() {
    let folder = Folder::new("left-over");
    let path = folder.with("group.journal", &older());
    let mut store = Store::open(&path, 5_000).unwrap();
    let mut stored = older();
    let mut adds = |bytes: &str| {
        stored.extend(hex(bytes));
        assert_eq!(fs::read(&path).unwrap(), stored);
    };
    adds("");
    let of_aa = told(&mut store, ordinary(AA, 1, 5_000, None));
    assert_eq!(of_aa, (assigned(1, 2), [0, 1]));
    adds("07 08 00 01 02 00 01 00");
    told(&mut store, join(BB, 5_000));
    adds("1D 05 01 01 BB* AC 02 01 03 02 08 01 02 00 00");

    // The same target for the next epoch is held to the rule.
    let before = store.group().clone();
    let hole = store.install(2, &entries(&[(0, 0), (1, 0)])).unwrap();
    assert_eq!(hole, refused(Refusal::BadTarget { slot: 2 }));
    assert!(*store.group() == before);
    adds("");
    let whole = entries(&[(0, 0), (1, 0), (2, 1)]);
    assert_eq!(store.install(2, &whole).unwrap(), Answer::Done);
    adds("06 07 01 01 02 06 02");

    // Every tick is that of the reading already.
    let written = picture(store.group());
    drop(store);
    let mut store = Store::open(&path, 5_000).unwrap();
    assert_eq!(picture(store.group()), written);
    let of_bb = told(&mut store, ordinary(BB, 2, 5_000, Some(&[])));
    assert_eq!(of_bb, (assigned(2, 1), [2, 0]));
    adds("06 08 01 02 01 02 00");
}

/// What else is wrong with a target is refused in a journal too, at the batch's length.
#[test]
fn nothing_but_that_rule_is_left_out() {
    for install in [
        "05 07 00 01 03 06 01", // a slot that does not exist
        "05 07 01 01 00 06 01", // an empty place
        "05 07 20 01 00 06 01", // a place above the last
    ] {
        let file = [file_after(2), hex(install)].concat();
        let at = file_after(2).len();
        let verdict = journal::read(&file, 5_000).verdict;
        assert_eq!(verdict, Verdict::Refused { offset: at }, "{install}");
    }
}
