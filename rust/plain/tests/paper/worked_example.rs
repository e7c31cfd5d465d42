//! "A morning with two workers": P1 to P12, one sequence, byte for byte.

use super::host::*;
use crate::coordinator::{Answer, Refusal};

struct Row {
    name: &'static str,
    answer: Answer,
    slots: &'static [u16],
    bytes: &'static str,
    epochs: (i32, i32),
}

fn rows() -> Vec<Row> {
    let row = |name, answer, slots, bytes, epochs| Row {
        name,
        answer,
        slots,
        bytes,
        epochs,
    };
    let already = refused(Refusal::Already);
    let done = Answer::Done;
    #[rustfmt::skip]
    let rows = vec![
        row("P1", done, &[], "04 00 11* 03", (0, 0)),
        row("P2", assigned(1, 0), &[], "05 00 01 AA* AC 02 01 03 01 08 00 01 00 00", (1, 0)),
        row("P3", done, &[], "07 00 03 00 01 01 06 01", (1, 1)),
        row("P4", assigned(1, 3), &[0, 1, 2], "08 00 01 03 00 01 01 00", (1, 1)),
        row("P5", assigned(2, 0), &[], "05 01 01 BB* AC 02 01 03 02 08 01 02 00 00", (2, 1)),
        row("P6", done, &[], "07 00 02 00 01 07 01 01 02 06 02", (2, 2)),
        row("P7", assigned(2, 0), &[], "", (2, 2)),
        row("P8", assigned(1, 2), &[0, 1], "08 00 01 02 00 01 01 02", (2, 2)),
        row("P9", assigned(1, 2), &[0, 1], "", (2, 2)),
        row("P10", assigned(2, 2), &[0, 1], "08 00 02 02 00 01 00", (2, 2)),
        row("P11", assigned(2, 1), &[2], "08 01 02 01 02 00", (2, 2)),
        row("P12", already, &[], "", (2, 2)),
    ];
    rows
}

fn play(host: &mut Host, name: &str) -> Given {
    match name {
        "P1" => host.topic(0, [0x11; 16], 3),
        "P2" => host.heartbeat(join(AA, 1_000)),
        "P3" => host.install(1, &entries(&[(0, 0), (1, 0), (2, 0)])),
        "P4" => host.heartbeat(ordinary(AA, 1, 1_000, None)),
        "P5" => host.heartbeat(join(BB, 2_000)),
        "P6" => host.install(2, &entries(&[(0, 0), (1, 0), (2, 1)])),
        "P7" => host.heartbeat(ordinary(BB, 2, 2_000, Some(&[]))),
        "P8" => host.heartbeat(ordinary(AA, 1, 2_000, Some(&[0, 1, 2]))),
        "P9" => host.heartbeat(ordinary(AA, 1, 2_000, None)),
        "P10" => host.heartbeat(ordinary(AA, 1, 2_000, Some(&[0, 1]))),
        "P11" => host.heartbeat(ordinary(BB, 2, 2_000, Some(&[]))),
        _ => host.install(2, &entries(&[(0, 0), (1, 0), (2, 1)])),
    }
}

fn check(host: &mut Host, row: &Row) {
    let given = play(host, row.name);
    assert_eq!(given.answer, row.answer, "{}", row.name);
    assert_eq!(given.slots, row.slots, "{}", row.name);
    assert_eq!(given.bytes, hex(row.bytes), "{}", row.name);
    let epochs = (host.group.epoch(), host.group.target_epoch());
    assert_eq!(epochs, row.epochs, "{}", row.name);
}

#[test]
fn p1_to_p12() {
    let mut host = Host::new(1_000);
    for row in rows() {
        check(&mut host, &row);
    }
    assert_eq!(host.group.last_tick(), 2_000);
}

/// Each step with a buffer and a list of exactly the length it needs, and refused before that with
/// either one short.
#[test]
fn p1_to_p12_in_exact_room() {
    let mut host = Host::new(1_000);
    for row in rows() {
        let (bytes, slots) = (hex(row.bytes).len(), row.slots.len());
        if let Some(short) = bytes.checked_sub(1) {
            let given = play(host.lend(short, ALL_SLOTS), row.name);
            assert_eq!(given.answer, refused(Refusal::Room), "{}", row.name);
        }
        if let Some(short) = slots.checked_sub(1) {
            let given = play(host.lend(ROOMY, short), row.name);
            assert_eq!(given.answer, refused(Refusal::Room), "{}", row.name);
        }
        check(host.lend(bytes, slots), &row);
    }
}
