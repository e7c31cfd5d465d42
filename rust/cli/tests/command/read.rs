//! `read`: the group that a journal has, and what the journal is found to be. Nothing is changed.

use std::fs;
use std::io::Write;
use std::process::{Output, Stdio};
use std::time::SystemTime;

use super::morning::{bytes, ends, journal, journal_after};
use super::running::*;

/// What is printed of a file, which stays as it is; from a pipe it is the same.
fn read(folder: &Folder, name: &str, file: &[u8]) -> Output {
    let path = folder.with(name, file);
    let changed = |path: &str| -> SystemTime { fs::metadata(path).unwrap().modified().unwrap() };
    let before = changed(&path);
    let output = run(&["read", &path]);
    assert_eq!(fs::read(&path).unwrap(), file);
    assert_eq!(changed(&path), before);
    let piped = run_on(&["read", "-"], file);
    assert_eq!(piped.stdout, output.stdout);
    assert_eq!(piped.status, output.status);
    output
}

const NO_GROUP: &str = "group   epoch 0, target epoch 0, no members\nfree    none\n";

#[test]
fn a_whole_journal() {
    let folder = Folder::new("whole");
    let printed = include_str!("../golden/read.txt");
    is_output(&read(&folder, "group.journal", &journal()), 0, printed, "");
}

#[test]
fn journals_without_a_batch() {
    let folder = Folder::new("without");
    for (name, file, verdict) in [
        (
            "empty",
            &b""[..],
            "torn    at offset 0: there is nothing, not even a heading",
        ),
        (
            "begun",
            b"GRJ",
            "torn    at offset 0: the last 3 bytes are an unfinished heading, \
             and are cut off before more is stored",
        ),
        ("heading", b"GRJ1", "whole   it ends at offset 4"),
    ] {
        let printed = format!("{NO_GROUP}found   no batches\n{verdict}\n");
        is_output(&read(&folder, name, file), 0, &printed, "");
    }
}

#[test]
fn a_journal_cut_at_any_byte() {
    let folder = Folder::new("cuts");
    let whole = journal();
    let ends = ends();
    for cut in 5..whole.len() {
        let output = read(&folder, "group.journal", &whole[..cut]);
        let printed = String::from_utf8_lossy(&output.stdout);
        let batches = ends.iter().filter(|&&end| end <= cut).count() - 1;
        let (end, tail) = (ends[batches], cut - ends[batches]);
        let found = match batches {
            0 => "found   no batches".into(),
            1 => format!("found   1 batch in the first {end} bytes"),
            _ => format!("found   {batches} batches in the first {end} bytes"),
        };
        let verdict = match tail {
            0 => format!("whole   it ends at offset {end}"),
            1 => format!("torn    at offset {end}: the last byte is an unfinished batch, and is cut off before more is stored"),
            _ => format!("torn    at offset {end}: the last {tail} bytes are an unfinished batch, and are cut off before more is stored"),
        };
        let ends = format!("\n{found}\n{verdict}\n");
        assert!(printed.ends_with(&ends), "cut at {cut}: {printed}");
        assert_eq!(output.status.code(), Some(0));
    }
}

/// What no event would have written, with where it is refused and why.
fn refused() -> Vec<(&'static str, Vec<u8>, usize, &'static str)> {
    let heading = "this is no journal, it does not begin with GRJ1";
    let length = "no batch has the length that stands there";
    let batch = "no event would write this batch for the group so far";
    let with = |more: &str| [journal(), bytes(more)].concat();
    let end = journal().len();
    let mut without_p4 = journal_after(3);
    without_p4.extend(&journal()[journal_after(4).len()..]);
    let p8 = journal_after(3).len() + journal_after(7).len() - journal_after(4).len();
    let binary = fs::read(COMMAND).unwrap();
    vec![
        ("a byte", b"X".to_vec(), 0, heading),
        ("almost", b"GRj1".to_vec(), 0, heading),
        ("a later edition", b"GRJ2".to_vec(), 0, heading),
        ("a script", b"sweep\n".to_vec(), 0, heading),
        ("a program", binary, 0, heading),
        ("zeros", vec![0; 1 << 20], 0, heading),
        ("no length", with("00"), end, length),
        ("a length above 4096", with("81 20"), end, length),
        ("a length of three bytes", with("80 80 01"), end, length),
        ("a length in too many bytes", with("86 00"), end, length),
        (
            "the last batch again",
            with("06 08 01 02 01 02 00"),
            end,
            batch,
        ),
        ("a batch of one byte", with("01 03"), end, batch),
        (
            "a long batch",
            with(&format!("80 01 {}", "08 ".repeat(128))),
            end,
            batch,
        ),
        ("no P4", without_p4, p8, batch),
    ]
}

#[test]
fn a_refused_journal() {
    let folder = Folder::new("refused");
    for (name, file, offset, why) in refused() {
        let output = read(&folder, name, &file);
        let printed = String::from_utf8_lossy(&output.stdout);
        let verdict = format!("\nrefused at offset {offset}: {why}\n");
        assert!(printed.ends_with(&verdict), "{name}: {printed}");
        let path = folder.file(name);
        let err = format!("pankvisolo: {path}: the journal is refused\n");
        is_output(&output, 2, &printed, &err);

        // No script goes on with it, and it stays as it is.
        let refused = format!(
            "{path}: the journal is refused at offset {offset}: {why}; it is left as it is\n"
        );
        is_refused(&run(&["--journal", &path]), &refused);
        assert!(fs::read(&path).unwrap() == file, "{name}");
    }
}

/// The group is the one after the last good batch, with as many rows as it has members.
#[test]
fn a_group_with_many_members() {
    let folder = Folder::new("many");
    let path = folder.file("group.journal");
    let joins: String = (0..32)
        .map(|place| format!("join w{place} timeout 300 topics 0\n"))
        .collect();
    run_on(&["--journal", &path, "-"], joins.as_bytes());
    let output = run(&["read", &path]);
    let printed = String::from_utf8_lossy(&output.stdout);
    for place in 0..32 {
        let row = format!("\n  p{place:<4}  w{place}");
        assert!(printed.contains(&row), "{printed}");
    }
    assert!(
        printed.contains("\nfound   32 batches in the first "),
        "{printed}"
    );
    assert!(!printed.contains('*'), "{printed}");
}

/// That a journal is refused is told whether or not anybody looks at its group.
#[test]
fn output_that_closes_early() {
    for (file, status) in [(&journal()[..], 0), (b"X", 2)] {
        let mut child = command(&["read", "-"])
            .stdin(Stdio::piped())
            .spawn()
            .unwrap();
        drop(child.stdout.take());
        child.stdin.take().unwrap().write_all(file).unwrap();
        let output = child.wait_with_output().unwrap();
        assert_eq!(output.status.code(), Some(status));
    }
}
