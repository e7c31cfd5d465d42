//! `install range`: the range assignor's target, shown as the install that it is.

use std::fs;

use super::morning::{self, bytes, journal};
use super::running::*;

/// Accepted, and its picture; refused when repeated; accepted again once a worker has left.
#[test]
fn a_site_without_an_assignor() {
    let printed = include_str!("../golden/range.txt");
    is_output(&run(&[&script("range.txt")]), 0, printed, "");
}

/// The labelled lines of the events that are installs of the range.
fn labelled(script: &str, label: &str) -> Vec<String> {
    let output = run_on(&["-"], script.as_bytes());
    assert_eq!(output.status.code(), Some(0));
    let printed = String::from_utf8(output.stdout).unwrap();
    let events = printed.split("\n\n");
    let ranges = events.filter(|event| event.contains("  install range\n"));
    ranges
        .flat_map(|event| event.lines().map(str::trim))
        .filter_map(|line| line.strip_prefix(label))
        .map(|text| text.trim().into())
        .collect()
}

/// The hand-written install in its place has the same answer and the same bytes.
#[test]
fn what_is_shown_can_be_written_in_its_place() {
    let mut rest = include_str!("../golden/range.txt").to_string();
    let ranges = labelled(&fs::read_to_string(script("range.txt")).unwrap(), "range ");
    assert_eq!(ranges.len(), 3);
    let mut lines = fs::read_to_string(script("range.txt")).unwrap();
    for install in ranges {
        lines = lines.replacen("install range", &install, 1);
        rest = rest.replacen("  install range\n", &format!("  {install}\n"), 1);
        rest = rest.replacen(&format!("    range   {install}\n"), "", 1);
    }
    is_output(&run_on(&["-"], lines.as_bytes()), 0, &rest, "");
}

/// P3, P6 and P12 of the built-in example are its installs: the script with them, and what it prints.
fn example() -> (String, String) {
    let (mut script, mut printed) = (morning::SCRIPT.to_string(), String::new());
    // What stands below the next line, which is the install's comment.
    let mut below = None;
    for line in morning::PRINTED.lines() {
        match line.get(4..).filter(|event| event.starts_with("install ")) {
            Some(install) => {
                script = script.replace(install, "install range");
                printed += &format!("{}install range\n", &line[..4]);
                below = Some(format!("    range   {install}\n"));
            }
            None => {
                printed += &format!("{line}\n");
                printed += &below.take().unwrap_or_default();
            }
        }
    }
    (script, printed)
}

#[test]
fn in_the_built_in_example() {
    let (script, printed) = example();
    assert_eq!(script.matches("install range").count(), 3);
    is_output(&run_on(&["-"], script.as_bytes()), 0, &printed, "");
}

/// The journal is the one of the installs that were written out.
#[test]
fn kept_in_a_journal() {
    let folder = Folder::new("range");
    let path = folder.file("group.journal");
    let (script, printed) = example();
    let output = run_on(&["--journal", &path, "-"], script.as_bytes());
    is_output(&output, 0, &printed, "");
    assert_eq!(fs::read(&path).unwrap(), journal());
    let read = include_str!("../golden/read.txt");
    is_output(&run(&["read", &path]), 0, read, "");

    // A second run goes on with it: refused, then for the epoch that a leave made.
    let more = b"install range\nleave AA\ninstall range\n";
    let output = run_on(&["--journal", &path, "-"], more);
    let printed = String::from_utf8_lossy(&output.stdout);
    assert!(
        printed.contains("\n    range   install epoch 3 t0:0-2 to p1\n    answer  done\n"),
        "{printed}"
    );
    let added = "0B 08 00 00 07 00 00 05 00 00 03 03 08 07 01 03 00 01 01 06 03";
    let both = [journal(), bytes(added)].concat();
    assert_eq!(fs::read(&path).unwrap(), both);
    let printed = run(&["read", &path]).stdout;
    let begins = "group   epoch 3, target epoch 3\nfree    t0:0-1\n";
    assert!(printed.starts_with(begins.as_bytes()));
}

/// A fresh group has the target of its epoch, 0; once its members have left, there is a target for
/// nobody.
#[test]
fn a_group_without_members() {
    let script = "install range
topic 0 id 11 count 3
install range
join AA timeout 300 topics 0
leave AA
install range
install range
";
    let nothing = |epoch: i32| format!("install epoch {epoch}");
    assert_eq!(labelled(script, "range "), [0, 0, 2, 2].map(nothing));
    let already = "refused 1005 ALREADY: the target is for the group's current epoch already";
    let answers = labelled(script, "answer ");
    assert_eq!(answers, [already, already, "done", already]);
    assert_eq!(
        labelled(script, "bytes "),
        ["none", "none", "06 02", "none"]
    );
    let group = "epoch 2, target epoch 2, no members";
    assert_eq!(labelled(script, "group "), [group]);
}

/// Of the largest group, whose picture doesn't fit a screen either.
#[test]
fn long_installs_are_broken() {
    let mut script: String = (0..16)
        .map(|topic| format!("topic {topic} id {:02x} count 64\n", topic + 1))
        .collect();
    let joins = (0..32).map(|place| format!("join w{place:02} timeout 300 topics 0-15\n"));
    script.extend(joins);
    script.push_str("install range # all of it\n");
    let output = run_on(&["-"], script.as_bytes());
    let printed = String::from_utf8_lossy(&output.stdout);
    let (_, event) = printed.split_once("    # all of it\n").unwrap();
    let (range, rest) = event.split_once("    answer  ").unwrap();
    assert!(rest.starts_with("done\n"), "{rest}");
    let lines: Vec<&str> = range.lines().collect();
    assert!(lines[0].starts_with("    range   install epoch 32 t0:0-1 t1:0-1 "));
    assert!(lines[1..]
        .iter()
        .all(|line| line.starts_with("            t")));
    assert!(lines.iter().all(|line| line.len() <= 80), "{range}");
    assert!(lines.last().unwrap().ends_with(" t15:62-63 to p31"));
}

#[test]
fn nothing_stands_behind_it() {
    for (line, word, marks) in [
        ("install range room 5", "room", "^^^^"),
        ("install range epoch 1", "epoch", "^^^^^"),
        ("install range t0:0 to p0", "t0:0", "^^^^"),
        ("install range range", "range", "^^^^^"),
    ] {
        let err = format!(
            "pankvisolo: standard input, line 2: '{word}' is no part of install range
    {line}
                  {marks}
    expected install range, with nothing after it
"
        );
        let script = format!("# one\n{line}\nsweep\n");
        is_output(&run_on(&["-"], script.as_bytes()), 2, "", &err);
    }
}

/// It is the word after `install`, in small letters.
#[test]
fn it_stands_first() {
    for (line, at) in [("install epoch 1 range", 16), ("install Range", 8)] {
        let (word, before) = (&line[at..], " ".repeat(at));
        let err = format!(
            "pankvisolo: standard input, line 1: '{word}' goes to no place
    {line}
    {before}^^^^^
    expected install epoch EPOCH [SLOTS to PLACE]... [length N] [room BYTES], or install range
"
        );
        is_output(&run_on(&["-"], line.as_bytes()), 2, "", &err);
    }
}
