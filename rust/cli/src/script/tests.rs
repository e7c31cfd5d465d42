use std::io;

use super::*;
use crate::host::Host;
use crate::style::Style;

/// What a script prints, and how it fails if it does.
fn outcome(script: &[u8]) -> (String, Option<String>) {
    let mut out = Vec::new();
    let mut input = script;
    let mut session = Session::new(Host::in_memory(), &mut out, Style::for_output(false));
    let failure = match run("example", &mut input, &mut session) {
        Ok(()) => None,
        Err(Failure::Input(text)) => Some(text),
        Err(failure) => panic!("{failure:?}"),
    };
    (String::from_utf8(out).unwrap(), failure)
}

fn failure(script: &[u8]) -> String {
    outcome(script).1.unwrap()
}

#[test]
fn an_empty_script_prints_nothing() {
    assert_eq!(outcome(b""), (String::new(), None));
    assert_eq!(outcome(b"\n# nothing\n\n"), (String::new(), None));
}

#[test]
fn a_last_line_without_end_runs() {
    let expected = " 1  sweep
    answer  nobody removed
    bytes   none

";
    assert_eq!(outcome(b"sweep"), (expected.into(), None));
    assert_eq!(outcome(b"sweep\r\n"), (expected.into(), None));
}

#[test]
fn events_are_counted_for_each_group() {
    let (printed, _) = outcome(b"sweep\nsweep\nfresh tick 5 # new\nsweep\n");
    let headings: Vec<&str> = printed
        .lines()
        .filter(|line| line.contains("sweep") || line.contains("fresh") || line.contains('#'))
        .collect();
    let expected = [
        " 1  sweep",
        " 2  sweep",
        "    fresh tick 5",
        "    # new",
        " 1  sweep",
    ];
    assert_eq!(headings, expected);
}

#[test]
fn nothing_runs_after_a_line_that_is_wrong() {
    let (printed, failure) = outcome(b"sweep\n\n  sweep tick soon # s\nsweep\n");
    assert_eq!(printed.matches("sweep").count(), 1);
    let expected = "example, line 3: 'soon' is not a number
      sweep tick soon # s
                 ^^^^
    expected a whole number from 0 to 4294967295";
    assert_eq!(failure.as_deref(), Some(expected));
}

#[test]
fn what_is_missing_is_marked_behind_the_event() {
    let expected = "example, line 1: leave has no ID
    leave  # who?
         ^
    expected leave ID [tick TICK] [room BYTES]";
    assert_eq!(failure(b"leave  # who?"), expected);
}

#[test]
fn marks_stand_below_letters_and_tabs() {
    let report = failure("sweep\ttick é\u{7}#\n".as_bytes());
    let lines: Vec<&str> = report.lines().collect();
    assert!(lines[0].ends_with("'é ' is not a number"));
    assert_eq!(lines[1], "    sweep tick é #");
    assert_eq!(lines[2], "               ^^");
}

#[test]
fn bytes_that_are_no_text() {
    let expected = "example, line 2: it is not text in UTF-8";
    assert_eq!(failure(b"sweep\n\xFF\xFE\n"), expected);
}

#[test]
fn a_line_without_end() {
    let mut script = b"#".repeat(LONGEST);
    assert_eq!(outcome(&script).1, None);
    script.push(b'#');
    let expected = "example, line 1: it is longer than 65536 bytes";
    assert_eq!(failure(&script), expected);
}

/// Writes like a pipe whose reader has gone.
struct Closed;

impl Write for Closed {
    fn write(&mut self, _: &[u8]) -> io::Result<usize> {
        Err(io::ErrorKind::BrokenPipe.into())
    }

    fn flush(&mut self) -> io::Result<()> {
        Ok(())
    }
}

#[test]
fn output_that_closes_early_ends_the_run() {
    let mut session = Session::new(Host::in_memory(), Closed, Style::for_output(false));
    let outcome = run("example", &mut &b"sweep\nsweep\n"[..], &mut session);
    let Err(Failure::Output(error)) = outcome else {
        panic!();
    };
    assert_eq!(error.kind(), io::ErrorKind::BrokenPipe);
}

#[test]
fn no_line_makes_it_panic() {
    const ODD: [&str; 16] = [
        "",
        "tick",
        "list",
        "to",
        "none",
        "-",
        "+",
        ",",
        "t:",
        "t0:",
        "p",
        "0-65535",
        "-2147483648",
        "99999999999999999999",
        "é\u{a0}é",
        "\u{a0}#",
    ];
    for line in crate::EXAMPLE.lines() {
        let words: Vec<&str> = line.split(' ').collect();
        for at in 0..words.len() {
            for odd in ODD {
                let mut words = words.clone();
                words[at] = odd;
                let script = format!("fresh tick 1000\n{}\n", words.join(" "));
                let (printed, _) = outcome(script.as_bytes());
                assert!(printed.starts_with("    fresh"));
            }
        }
    }
}
