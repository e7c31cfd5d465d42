//! A disk that is full: nothing is answered that isn't stored, and nothing stored is lost.

use std::fs;
use std::io::ErrorKind;
use std::path::Path;

use pankvisolo::journal::{self, Store};
use pankvisolo::Answer;

use super::child::{self, Limit};
use super::folder::Folder;
use super::host::*;
use super::morning::{after, file_after, BEFORE};

const BLOCK: usize = 512;

/// Joins until the file may not grow; then a batch is cut off in its midst.
#[test]
fn a_file_that_may_not_grow() {
    if child::path().is_some() {
        // As in a host that names no folder.
        return joins_until_full(Path::new("group.journal"));
    }
    let folder = Folder::new("full");
    let path = folder.file("group.journal");
    drop(after(11, &path));
    child::run(
        "trouble::a_file_that_may_not_grow",
        &folder,
        &path,
        Limit::FileBlocks(1),
    );
    // With room again it goes on where it was.
    let mut store = Store::open(&path, 5_000).unwrap();
    assert!((3..10).all(|place| store.group().member_at(place).is_some()));
    assert!(store.topic(1, [0x22; 16], 64).is_ok());
}

fn joins_until_full(path: &Path) {
    let mut store = Store::open(path, 3_000).unwrap();
    let mut joined = 0;
    let mut before = fs::read(path).unwrap();
    let mut list = [BEFORE; ALL_SLOTS];
    let error = loop {
        match store.heartbeat(&join(id(joined), 3_000), &mut list) {
            Ok(answer) => assert!(matches!(answer, Answer::Assignment { .. })),
            Err(error) => break error,
        }
        joined += 1;
        before = fs::read(path).unwrap();
    };
    let said = error.to_string();
    let end = before.len();
    let begins = format!("group.journal: the batch at offset {end} could not be stored, and nothing is served until the journal is opened again: File too large");
    assert!(said.starts_with(&begins), "{said}");
    assert_eq!(error.kind(), ErrorKind::FileTooLarge);
    assert!(list.iter().all(|&entry| entry == BEFORE));

    // What was written of the batch is tail, and the group is the one that was last answered for.
    let torn = fs::read(path).unwrap();
    assert_eq!((torn.len(), &torn[..end]), (BLOCK, &before[..]));
    let last = picture(store.group());
    assert!(store.group().member_at(joined + 2).is_none());
    serves_nothing(&mut store, end);
    drop(store);

    // Opened again, it has lost nothing, takes events that store nothing, and no others.
    let mut store = Store::open(path, 3_000).unwrap();
    assert_eq!(picture(store.group()), last);
    assert_eq!(fs::read(path).unwrap(), before);
    let beat = ordinary(BB, 2, 3_000, Some(&[2]));
    let told = store.heartbeat(&beat, &mut list).unwrap();
    assert_eq!((told, list[0]), (assigned(2, 1), 2));
    assert!(store
        .heartbeat(&join(id(joined), 3_000), &mut list)
        .is_err());
    serves_nothing(&mut store, end);
    let kept = journal::read(&before, 3_000);
    assert!((0..joined).all(|place| kept.group.member_at(place + 2).is_some()));
}

/// Not even what would be refused or stores nothing.
fn serves_nothing(store: &mut Store, end: usize) {
    let before = picture(store.group());
    let mut list = [BEFORE; ALL_SLOTS];
    let errors = [
        store.heartbeat(&ordinary(BB, 2, 3_000, Some(&[2])), &mut list),
        store.sweep(3_000),
        store.sweep(0),
        store.topic(99, [0; 16], 0),
        store.install(0, &[]),
    ];
    let begins = format!("group.journal: nothing is served until the journal is opened again, because the batch at offset {end} could not be stored: File too large");
    for error in errors {
        let said = error.unwrap_err().to_string();
        assert!(said.starts_with(&begins), "{said}");
    }
    assert_eq!(list, [BEFORE; ALL_SLOTS]);
    assert_eq!(picture(store.group()), before);
}

/// A file that grows no more before it has its heading.
#[test]
fn a_heading_that_cannot_be_written() {
    let says = |path: &Path| {
        let error = Store::open(path, 1_000).err().expect("no room");
        let said = error.to_string();
        let begins = format!(
            "{}: the journal's heading cannot be written: File too large",
            path.display()
        );
        assert!(said.starts_with(&begins), "{said}");
    };
    if let Some(path) = child::path() {
        return says(&path);
    }
    let folder = Folder::new("no-heading");
    let path = folder.with("group.journal", b"GR");
    child::run(
        "trouble::a_heading_that_cannot_be_written",
        &folder,
        &path,
        Limit::FileBlocks(0),
    );
    drop(Store::open(&path, 1_000).unwrap());
    assert_eq!(fs::read(&path).unwrap(), file_after(0));
}
