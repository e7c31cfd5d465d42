//! 01's morning with two workers through a store.

use std::io;
use std::path::Path;

use pankvisolo::journal::Store;
use pankvisolo::{Answer, Heartbeat, Refusal};

use super::host::*;

/// P1 to P12: what each must answer and tell, and what it must add to the file.
pub const ROWS: [(&str, Answer, &[u16], &str); 12] = [
    ("P1", Answer::Done, &[], "13 04 00 11* 03"),
    (
        "P2",
        answer(1, 0),
        &[],
        "1D 05 00 01 AA* AC 02 01 03 01 08 00 01 00 00",
    ),
    ("P3", Answer::Done, &[], "08 07 00 03 00 01 01 06 01"),
    ("P4", answer(1, 3), &[0, 1, 2], "08 08 00 01 03 00 01 01 00"),
    (
        "P5",
        answer(2, 0),
        &[],
        "1D 05 01 01 BB* AC 02 01 03 02 08 01 02 00 00",
    ),
    (
        "P6",
        Answer::Done,
        &[],
        "0B 07 00 02 00 01 07 01 01 02 06 02",
    ),
    ("P7", answer(2, 0), &[], ""),
    ("P8", answer(1, 2), &[0, 1], "08 08 00 01 02 00 01 01 02"),
    ("P9", answer(1, 2), &[0, 1], ""),
    ("P10", answer(2, 2), &[0, 1], "07 08 00 02 02 00 01 00"),
    ("P11", answer(2, 1), &[2], "06 08 01 02 01 02 00"),
    ("P12", Answer::Refused(Refusal::Already), &[], ""),
];

const fn answer(epoch: i32, count: usize) -> Answer {
    Answer::Assignment {
        epoch,
        interval: 5_000,
        count,
    }
}

/// What no slot is.
pub const BEFORE: u16 = 0xA5A5;

pub fn play(store: &mut Store, name: &str, list: &mut [u16]) -> io::Result<Answer> {
    let mut beat = |request: Heartbeat| store.heartbeat(&request, list);
    match name {
        "P1" => store.topic(0, [0x11; 16], 3),
        "P2" => beat(join(AA, 1_000)),
        "P3" => store.install(1, &entries(&[(0, 0), (1, 0), (2, 0)])),
        "P4" => beat(ordinary(AA, 1, 1_000, None)),
        "P5" => beat(join(BB, 2_000)),
        "P6" | "P12" => store.install(2, &entries(&[(0, 0), (1, 0), (2, 1)])),
        "P7" | "P11" => beat(ordinary(BB, 2, 2_000, Some(&[]))),
        "P8" => beat(ordinary(AA, 1, 2_000, Some(&[0, 1, 2]))),
        "P9" => beat(ordinary(AA, 1, 2_000, None)),
        "P10" => beat(ordinary(AA, 1, 2_000, Some(&[0, 1]))),
        _ => panic!("{name} is no row"),
    }
}

/// The file after so many of them.
pub fn file_after(rows: usize) -> Vec<u8> {
    let added = ROWS[..rows].iter().map(|(_, _, _, bytes)| hex(bytes));
    [b"GRJ1".to_vec()]
        .into_iter()
        .chain(added)
        .flatten()
        .collect()
}

/// A store at a path after so many of them.
pub fn after(rows: usize, path: &Path) -> Store {
    let mut store = Store::open(path, 1_000).unwrap();
    for (name, ..) in &ROWS[..rows] {
        play(&mut store, name, &mut [0; ALL_SLOTS]).unwrap();
    }
    store
}
