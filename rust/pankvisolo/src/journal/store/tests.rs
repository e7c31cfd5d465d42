//! What only a broken file shows: it is given to a store that is open.

use std::env;
use std::fs::{self, File};
use std::io::ErrorKind;
use std::process;
use std::sync::atomic::{AtomicUsize, Ordering};

use super::*;

/// A store with a topic whose file is now this device, and what its journal had.
fn over(device: &str, run: impl FnOnce(Store, Vec<u8>)) {
    // Each call has a journal of its own: tests run side by side.
    static CALLS: AtomicUsize = AtomicUsize::new(0);
    let call = CALLS.fetch_add(1, Ordering::Relaxed);
    let name = device.replace('/', "-");
    let path = env::temp_dir().join(format!("pankvisolo-{}{name}-{call}", process::id()));
    let mut store = Store::open(&path, 1_000).unwrap();
    store.topic(0, [0x11; 16], 3).unwrap();
    let stored = fs::read(&path).unwrap();
    store.file = Locked(File::options().write(true).open(device).unwrap());
    run(store, stored.clone());
    assert_eq!(fs::read(&path).unwrap(), stored);
    let read = Store::open(&path, 1_000).unwrap();
    assert_eq!(read.group().topic_at(0).map(|topic| topic.count), Some(3));
    fs::remove_file(&path).unwrap();
}

fn join() -> Heartbeat<'static> {
    Heartbeat {
        id: [0xAA; 16],
        epoch: 0,
        tick: 1_000,
        timeout: 300,
        subscription: Some(1),
        owned: Some(&[]),
    }
}

/// The event that met the error and all that follow have no answer, and show no group.
fn serves_nothing(mut store: Store, stored: Vec<u8>, kind: ErrorKind, why: &str) {
    let before = store.group().clone();
    let path = store.path.display().to_string();
    let error = store.heartbeat(&join(), &mut []).unwrap_err();
    assert_eq!(error.kind(), kind);
    let what = format!("the batch at offset {} could not be stored", stored.len());
    let until = "nothing is served until the journal is opened again";
    assert_eq!(
        error.to_string(),
        format!("{path}: {what}, and {until}: {why}")
    );
    for error in [
        store.heartbeat(&join(), &mut []),
        store.sweep(1_000),
        store.topic(0, [0x11; 16], 3),
        store.install(0, &[]),
    ] {
        let said = error.unwrap_err().to_string();
        assert_eq!(said, format!("{path}: {until}, because {what}: {why}"));
    }
    assert!(*store.group() == before);
}

#[test]
fn a_full_disk() {
    over("/dev/full", |store, stored| {
        let why = "No space left on device (os error 28)";
        serves_nothing(store, stored, ErrorKind::StorageFull, why);
    });
}

/// It takes what is written, and cannot be synced.
#[test]
fn a_batch_that_is_not_synced_is_not_stored() {
    over("/dev/null", |store, stored| {
        let why = "Invalid argument (os error 22)";
        serves_nothing(store, stored, ErrorKind::InvalidInput, why);
    });
}

/// What stores nothing needs no disk.
#[test]
fn a_refusal_and_a_quiet_event_are_answered_before_that() {
    over("/dev/full", |mut store, _| {
        assert_eq!(store.topic(0, [0x11; 16], 3).unwrap(), Answer::Done);
        assert_eq!(store.sweep(2_000).unwrap(), Answer::Swept(0));
        assert_eq!(store.group().last_tick(), 2_000);
        let refused = store.install(7, &[255; 1_024]).unwrap();
        assert!(matches!(refused, Answer::Refused(_)));
        assert!(store.topic(1, [0x22; 16], 3).is_err());
    });
}
