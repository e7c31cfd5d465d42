//! Scripts whose events are stored in a journal, and go on with what it has.

use std::fs;

use super::morning::{self, ends, journal, journal_after, P1_TO_P12};
use super::running::*;

#[test]
fn a_script_is_stored_and_its_output_is_that_without_a_journal() {
    let folder = Folder::new("stored");
    let path = folder.file("group.journal");
    is_output(&run(&["--journal", &path]), 0, morning::PRINTED, "");
    assert_eq!(fs::read(&path).unwrap(), journal());
}

/// A file that is empty or only a heading is a journal without a batch, as one that is not there.
#[test]
fn a_journal_that_has_nothing_yet() {
    let folder = Folder::new("nothing-yet");
    for (name, bytes) in [("empty", &b""[..]), ("heading", b"GRJ1")] {
        let path = folder.with(name, bytes);
        is_output(&run(&["--journal", &path]), 0, morning::PRINTED, "");
        assert_eq!(fs::read(&path).unwrap(), journal());
    }
    let path = folder.file("made");
    is_output(&run_on(&["-", "--journal", &path], b"# nothing"), 0, "", "");
    assert_eq!(fs::read(&path).unwrap(), b"GRJ1");
}

#[test]
fn a_second_run_goes_on_where_the_first_ended() {
    let folder = Folder::new("two-runs");
    let run_here = |arguments: &[&str]| command(arguments).current_dir(folder.path()).output();
    run_here(&["--journal", "group.journal"]).unwrap();
    let script = script("afternoon.txt");
    let second = ["--journal", "group.journal", "--tick", "60000", &script];
    let printed = include_str!("../golden/afternoon.txt");
    is_output(&run_here(&second).unwrap(), 0, printed, "");
    let afternoon = "0B 08 00 00 07 00 00 05 00 00 03 03 15 04 00 11* 04 03 04";
    let both = [journal(), morning::bytes(afternoon)].concat();
    assert_eq!(fs::read(folder.file("group.journal")).unwrap(), both);
}

/// "Journals are read without this rule": the target of this one leaves slot 2 over.
#[test]
fn a_journal_with_a_slot_left_over_is_gone_on_with() {
    let folder = Folder::new("left-over");
    let before = [journal_after(2), morning::bytes("07 07 00 02 00 01 06 01")].concat();
    let path = folder.with("group.journal", &before);
    let read = run(&["read", &path]);
    let printed = String::from_utf8_lossy(&read.stdout);
    assert!(
        printed.ends_with("\nwhole   it ends at offset 62\n"),
        "{printed}"
    );
    assert_eq!(read.status.code(), Some(0));

    let mut command = command(&["--journal", "group.journal", &script("left_over.txt")]);
    let output = command.current_dir(folder.path()).output().unwrap();
    is_output(&output, 0, include_str!("../golden/left_over.txt"), "");
    let more = "07 08 00 01 02 00 01 00 1D 05 01 01 BB* AC 02 01 03 02 08 01 02 00 00 06 07 01 01 02 06 02";
    let both = [before, morning::bytes(more)].concat();
    assert_eq!(fs::read(&path).unwrap(), both);
}

/// A name is no line of a script, whatever is in it.
#[test]
fn names_with_odd_characters() {
    let folder = Folder::new("names");
    let path = folder.with("a  group's # journal\n1", &journal());
    let output = run_on(&["--journal", &path, "-"], b"");
    let printed = String::from_utf8_lossy(&output.stdout);
    let first = format!("    journal {}", path.replace('\n', " "));
    assert_eq!(printed.lines().next(), Some(&*first));
}

/// Without --tick a journal is read at 0, when a script's first group is made too.
#[test]
fn the_tick_of_reading() {
    let folder = Folder::new("tick");
    for (tick, script) in [
        (&[][..], "sweep tick 44999\nsweep tick 45000"),
        (
            &["--tick", "4294967295"],
            "sweep tick 44998\nsweep tick 44999",
        ),
    ] {
        let path = folder.with("group.journal", &journal());
        let arguments = [&["--journal", &path, "-"], tick].concat();
        let printed = run_on(&arguments, script.as_bytes()).stdout;
        let printed = String::from_utf8(printed).unwrap();
        let answers = printed
            .lines()
            .filter_map(|line| line.split_once("answer  "));
        let answers: Vec<&str> = answers.map(|(_, answer)| answer).collect();
        assert_eq!(answers, ["nobody removed", "2 members removed"]);
    }
}

#[test]
fn a_journal_is_of_one_group() {
    let folder = Folder::new("fresh");
    let path = folder.with("group.journal", &journal());
    let output = run(&["--journal", &path]);
    let err = "pankvisolo: the built-in example, line 4: the journal has a group already
    fresh tick 1000
    ^^^^^
    expected no 'fresh' once a batch is stored, or another journal
";
    assert_eq!(String::from_utf8_lossy(&output.stderr), err);
    assert_eq!(output.status.code(), Some(2));
    assert_eq!(fs::read(&path).unwrap(), journal());

    // Before the first batch each fresh group counts, and what was stored meanwhile is noticed.
    let path = folder.file("another.journal");
    let script = b"fresh tick 5\nsweep tick 7\nfresh tick 6\nsweep tick 5\n\
                   topic 0 id 11 count 3\n fresh";
    let output = run_on(&["--journal", &path, "-"], script);
    let printed = String::from_utf8_lossy(&output.stdout);
    let clock = "1001 CLOCK: tick 5 is 1 ms before the group's last tick, 6";
    assert!(printed.contains(clock), "{printed}");
    let err = String::from_utf8_lossy(&output.stderr);
    let begins = "pankvisolo: standard input, line 6: the journal has a group already\n     fresh\n     ^^^^^\n";
    assert!(err.starts_with(begins), "{err}");
    assert_eq!(fs::read(&path).unwrap(), journal_after(1));
}

/// The example from the event on that wrote the batch of this number, which counts from 0.
fn from_batch(batch: usize) -> String {
    let lines = morning::SCRIPT.lines();
    let lines: Vec<&str> = lines
        .filter(|line| !line.is_empty() && !line.starts_with('#'))
        .collect();
    let (fresh, events) = lines.split_first().unwrap();
    assert_eq!((*fresh, events.len()), ("fresh tick 1000", P1_TO_P12.len()));
    let writes = |event: &usize| P1_TO_P12[*event].0 != "none";
    match (0..events.len()).filter(writes).nth(batch) {
        Some(0) => lines.join("\n"),
        Some(first) => events[first..].join("\n"),
        None => String::new(),
    }
}

/// Whoever got no answer asks again, and the file becomes what it would have been.
#[test]
fn a_journal_cut_at_any_byte_is_gone_on_with() {
    let folder = Folder::new("cut");
    let whole = journal();
    let ends = ends();
    for cut in 0..=whole.len() {
        let path = folder.with("group.journal", &whole[..cut]);
        let batches = ends
            .iter()
            .filter(|&&end| end <= cut)
            .count()
            .saturating_sub(1);
        let rest = from_batch(batches);
        let output = run_on(
            &["--journal", &path, "--tick", "1000", "-"],
            rest.as_bytes(),
        );
        let err = String::from_utf8_lossy(&output.stderr);
        assert_eq!((output.status.code(), &*err), (Some(0), ""), "cut at {cut}");
        assert!(fs::read(&path).unwrap() == whole, "cut at {cut}");
        // Nothing and a heading are no news.
        let is_told = output.stdout.starts_with(b"    journal ");
        assert_eq!(is_told, cut != 0 && cut != 4, "cut at {cut}");
    }
}

#[test]
fn a_torn_tail_is_told_of_and_cut_off() {
    let folder = Folder::new("torn");
    folder.with("group.journal", &journal()[..100]);
    let mut command = command(&["--journal", "group.journal", &script("joins_again.txt")]);
    let output = command.current_dir(folder.path()).output().unwrap();
    let printed = include_str!("../golden/joins_again.txt");
    is_output(&output, 0, printed, "");
    let path = folder.file("group.journal");
    assert_eq!(fs::read(path).unwrap(), journal_after(5));
}
