//! Scripts: the built-in example byte for byte, files and pipes, and what is said of input that is
//! wrong.

use std::io::Write;
use std::process::Stdio;

use super::morning::{P1_TO_P12, PRINTED, SCRIPT};
use super::running::*;

#[test]
fn the_built_in_example() {
    is_output(&run(&[]), 0, PRINTED, "");
}

#[test]
fn the_built_in_script_runs_from_a_pipe_as_well() {
    is_output(&run(&["--example"]), 0, SCRIPT, "");
    is_output(&run_on(&["-"], SCRIPT.as_bytes()), 0, PRINTED, "");
}

#[test]
fn the_built_in_example_is_that_of_01() {
    let printed = String::from_utf8(run(&[]).stdout).unwrap();
    let events: Vec<&str> = printed.trim_end().split("\n\n").skip(1).collect();
    assert_eq!(events.len(), P1_TO_P12.len());
    for (event, (bytes, answer)) in events.iter().zip(P1_TO_P12) {
        let label = |label: &str| {
            let mut lines = event
                .lines()
                .filter_map(|line| line.trim().split_once(label));
            lines.next().map(|(_, text)| text.trim())
        };
        assert_eq!(label("bytes  "), Some(bytes.replace('*', " x16").as_str()));
        let (epoch, slots) = match answer.split_once("; ") {
            Some((epoch, slots)) => (format!("{epoch}, next heartbeat in 5000 ms"), Some(slots)),
            None => (answer.into(), None),
        };
        assert!(label("answer  ").unwrap().starts_with(&epoch), "{event}");
        assert_eq!(label("slots  "), slots, "{event}");
    }
}

#[test]
fn every_refusal_with_its_number_and_name() {
    let output = run(&[&script("refusals.txt")]);
    let printed = String::from_utf8_lossy(&output.stdout);
    let refused: Vec<&str> = printed
        .lines()
        .filter_map(|line| Some(line.split_once("refused ")?.1))
        .collect();
    let expected = [
        "1001 CLOCK: tick 999 is 1 ms before the group's last tick, 1000",
        "42 INVALID_REQUEST: the ID is all zeros",
        "25 UNKNOWN_MEMBER_ID: no member has the ID CC",
        "110 FENCED_MEMBER_EPOCH: the heartbeat is at epoch 7, and AA is at 1",
        "42 INVALID_REQUEST: slot 3 (t0:3) is listed, and AA does not hold it",
        "1006 BAD_TARGET: the list has 1023 entries, not 1024",
        "1004 STALE: the install is for epoch 0, and the group is at 1",
        "1005 ALREADY: the target is for the group's current epoch already",
        "1007 BAD_TOPIC: the count falls from 3 to 2",
        "1003 ROOM: the records take 29 bytes, and 28 were lent",
        "1003 ROOM: the answer has 3 slots, and 2 entries were lent",
        "1006 BAD_TARGET: slot 4 (t0:4) cannot go to p0: the slot does not exist",
        "1006 BAD_TARGET: slot 3 (t0:3) is left over: p0 (AA) subscribes to t0, and the target gives it to nobody",
        "81 GROUP_MAX_SIZE_REACHED: all 32 places are taken",
    ];
    assert_eq!(refused, expected);
    assert_eq!(output.status.code(), Some(0));
}

#[test]
fn a_line_that_is_wrong_stops_the_run() {
    let path = script("wrong.txt");
    let out = " 1  sweep
    answer  nobody removed
    bytes   none

";
    let err = format!(
        "pankvisolo: {path}, line 4: there is no event 'jion'
    jion AA timeout 300 topics 0
    ^^^^
    expected fresh, topic, join, beat, leave, sweep or install
"
    );
    is_output(&run(&[&path]), 2, out, &err);
}

#[test]
fn a_wrong_line_of_standard_input() {
    let err = "pankvisolo: standard input, line 1: 'soon' is not a number
    sweep tick soon
               ^^^^
    expected a whole number from 0 to 4294967295
";
    is_output(&run_on(&["-"], b"sweep tick soon\nsweep\n"), 2, "", err);
}

#[test]
fn files_that_are_none() {
    let err = "pankvisolo: cannot open no/such.txt: No such file or directory (os error 2)\n";
    is_output(&run(&["no/such.txt"]), 2, "", err);
    let directory = run(&[&script("")]);
    let err = String::from_utf8_lossy(&directory.stderr);
    assert!(err.contains("cannot be read"), "{err}");
    assert_eq!(directory.status.code(), Some(2));
}

#[test]
fn arguments_that_are_none() {
    let err = "pankvisolo: there is no option '--halp'; \
               expected a file name, -, read, --journal, --help, --version or --example\n";
    is_output(&run(&["--halp"]), 2, "", err);
    let err = "pankvisolo: 'b' is one argument too many; try --help\n";
    is_output(&run(&["a", "b"]), 2, "", err);
}

#[test]
fn help_explains_every_event_and_ends_with_the_example() {
    let output = run(&["--help"]);
    assert_eq!(output.status.code(), Some(0));
    let help = String::from_utf8(output.stdout).unwrap();
    assert!(help.ends_with(SCRIPT));
    for word in [
        "fresh ",
        "topic ",
        "join ",
        "beat ",
        "leave ",
        "sweep ",
        "install ",
        "install range ",
        "room ",
        "entries ",
        "length ",
        "--version",
        "--example",
        "--journal ",
        "--tick ",
        "read ",
    ] {
        assert!(help.contains(word), "{word}");
    }
    assert!(help.lines().all(|line| line.chars().count() <= 80));
}

#[test]
fn the_version() {
    let version = format!("pankvisolo {}\n", env!("CARGO_PKG_VERSION"));
    is_output(&run(&["--version"]), 0, &version, "");
}

#[test]
fn output_that_closes_early_is_no_failure() {
    for arguments in [&[][..], &["-"], &["--help"]] {
        let mut child = command(arguments).stdin(Stdio::piped()).spawn().unwrap();
        drop(child.stdout.take());
        let mut input = child.stdin.take().unwrap();
        // The command may be gone before it has read this.
        let _ = input.write_all("sweep\n".repeat(20_000).as_bytes());
        drop(input);
        is_output(&child.wait_with_output().unwrap(), 0, "", "");
    }
}
