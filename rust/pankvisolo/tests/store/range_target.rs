//! A host without an assignor of its own installs the range assignor's target, whoever was broker when
//! the group's epoch rose.

use std::fs;

use pankvisolo::journal::Store;
use pankvisolo::{Answer, Refusal};

use super::folder::Folder;
use super::host::*;
use super::morning::{file_after, play, ROWS};

fn install(store: &mut Store) -> Answer {
    let (epoch, target) = (store.group().epoch(), store.group().range_target());
    store.install(epoch, &target).unwrap()
}

/// P3, P6 and P12 are its installs, so the file is that of the morning.
#[test]
fn the_installs_of_the_morning() {
    let folder = Folder::new("range");
    let path = folder.file("group.journal");
    let mut store = Store::open(&path, 1_000).unwrap();
    for (row, (name, answer, _, _)) in ROWS.into_iter().enumerate() {
        let given = match name {
            "P3" | "P6" | "P12" => install(&mut store),
            _ => play(&mut store, name, &mut [0; ALL_SLOTS]).unwrap(),
        };
        assert_eq!(given, answer, "{name}");
        assert_eq!(fs::read(&path).unwrap(), file_after(row + 1), "{name}");
    }
}

/// The broker before joined BB*, and was gone before it installed a target.
#[test]
fn after_a_failover() {
    let folder = Folder::new("range-failover");
    let path = folder.with("group.journal", &file_after(5));
    let mut store = Store::open(&path, 60_000).unwrap();
    assert!(store.group().target_epoch() < store.group().epoch());
    assert_eq!(install(&mut store), Answer::Done);
    assert_eq!(fs::read(&path).unwrap(), file_after(6));
    assert_eq!(install(&mut store), refused(Refusal::Already));
    assert_eq!(fs::read(&path).unwrap(), file_after(6));
}
