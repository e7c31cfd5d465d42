//! Journals that cannot be opened, stored in or printed about.

use std::fs::{self, File, OpenOptions, Permissions};
use std::io::{self, BufRead, BufReader, Write};
use std::os::unix::fs::PermissionsExt;
use std::os::unix::process::CommandExt;
use std::process::{Child, Command, Output, Stdio};

use super::morning::{self, journal, journal_after};
use super::running::*;

#[test]
fn what_is_no_file() {
    let folder = Folder::new("no-file");
    let lacking = folder.file("lacking/group.journal");
    let open = |path: &str| run(&["--journal", path]);
    let begins = format!("{lacking}: the journal cannot be opened: No such file or directory");
    is_refused(&open(&lacking), &begins);
    let path = folder.path();
    let begins = format!("{path}: the journal cannot be opened: Is a directory");
    is_refused(&open(path), &begins);
    for device in ["/dev/full", "/dev/null"] {
        let said = format!("{device}: a journal is a regular file, and this is none\n");
        is_refused(&open(device), &said);
    }

    let begins = format!("cannot open {lacking}: No such file or directory");
    is_refused(&run(&["read", &lacking]), &begins);
    let begins = format!("{path}: it cannot be read: Is a directory");
    is_refused(&run(&["read", path]), &begins);
}

/// A pipe is not waited for.
#[test]
fn a_pipe_is_no_journal() {
    let folder = Folder::new("pipe");
    let path = folder.file("pipe");
    assert!(Command::new("mkfifo")
        .arg(&path)
        .status()
        .unwrap()
        .success());
    let said = format!("{path}: a journal is a regular file, and this is none\n");
    is_refused(&run(&["--journal", &path]), &said);
}

/// Without a script there is no journal either.
#[test]
fn no_journal_is_made_for_a_script_that_is_not_there() {
    let folder = Folder::new("no-script");
    let path = folder.file("group.journal");
    let script = folder.file("script.txt");
    is_refused(
        &run(&["--journal", &path, &script]),
        &format!("cannot open {script}: "),
    );
    assert!(!fs::exists(&path).unwrap());
}

const NOBODY: u32 = 65_534;

/// Root may read and write any file, so somebody else tries it.
fn run_as_nobody(folder: &Folder, arguments: &[&str], forbidden: &str) -> Output {
    // Where the command lies, nobody else may be let in. Another process makes the copy: a child that
    // another test starts meanwhile would inherit this one's file, and what is open for writing cannot
    // be run.
    let copy = folder.file("pankvisolo");
    let made = Command::new("cp").args([COMMAND, &copy]).status().unwrap();
    assert!(made.success());
    let mut command = Command::new(&copy);
    command.args(arguments).stdin(Stdio::null());
    if OpenOptions::new().append(true).open(forbidden).is_ok() {
        command.uid(NOBODY);
    }
    command.output().unwrap()
}

#[test]
fn files_that_may_not_be_written_or_read() {
    let folder = Folder::new("forbidden");
    let path = folder.with("group.journal", &journal());
    fs::set_permissions(&path, Permissions::from_mode(0o444)).unwrap();
    let output = run_as_nobody(&folder, &["--journal", &path], &path);
    let begins = format!("{path}: the journal cannot be opened: Permission denied");
    is_refused(&output, &begins);
    let output = run_as_nobody(&folder, &["read", &path], &path);
    is_output(&output, 0, include_str!("../golden/read.txt"), "");

    fs::set_permissions(&path, Permissions::from_mode(0o000)).unwrap();
    let output = run_as_nobody(&folder, &["--journal", &path], &path);
    is_refused(&output, &begins);
    let output = run_as_nobody(&folder, &["read", &path], &path);
    is_refused(&output, &format!("cannot open {path}: Permission denied"));
    fs::set_permissions(&path, Permissions::from_mode(0o600)).unwrap();
    assert_eq!(fs::read(&path).unwrap(), journal());
}

/// The command with a journal, after it has answered the first event.
fn answered_once(path: &str) -> Child {
    let mut child = command(&["--journal", path, "-"])
        .stdin(Stdio::piped())
        .spawn()
        .unwrap();
    let mut input = child.stdin.take().unwrap();
    input.write_all(b"topic 0 id 11 count 3\n").unwrap();
    child.stdin = Some(input);
    let mut lines = BufReader::new(child.stdout.as_mut().unwrap()).lines();
    assert!(lines.any(|line| line.unwrap() == "    answer  done"));
    child
}

#[test]
fn what_was_answered_is_stored_whatever_comes_then() {
    let folder = Folder::new("killed");
    let path = folder.file("group.journal");
    let mut child = answered_once(&path);
    assert_eq!(fs::read(&path).unwrap(), journal_after(1));
    child.kill().unwrap();
    child.wait().unwrap();
    assert_eq!(fs::read(&path).unwrap(), journal_after(1));
    // The lock went with it.
    let (_, events) = morning::SCRIPT.split_once("count 3").unwrap();
    let (_, events) = events.split_once('\n').unwrap();
    let output = run_on(&["--journal", &path, "-"], events.as_bytes());
    assert_eq!(output.status.code(), Some(0));
    assert_eq!(fs::read(&path).unwrap(), journal());
}

#[test]
fn a_journal_in_use_is_read_and_not_gone_on_with() {
    let folder = Folder::new("in-use");
    let path = folder.file("group.journal");
    let mut child = answered_once(&path);
    let said = format!("{path}: the journal is open already, in this process or another\n");
    is_refused(&run(&["--journal", &path]), &said);
    let printed = "group   epoch 0, target epoch 0, no members
free    t0:0-2
found   1 batch in the first 24 bytes
whole   it ends at offset 24
";
    is_output(&run(&["read", &path]), 0, printed, "");
    drop(child.stdin.take());
    assert!(child.wait().unwrap().success());
    assert_eq!(fs::read(&path).unwrap(), journal_after(1));
}

/// The first event's batch is stored, its answer cannot be printed, and nothing runs after it. Where
/// nothing is stored, output that closes early is no failure.
#[test]
fn output_that_fails() {
    let folder = Folder::new("output");
    let full = OpenOptions::new().write(true).open("/dev/full").unwrap();
    let (reader, closed) = io::pipe().unwrap();
    drop(reader);
    for (out, why) in [
        (Stdio::from(full), "No space left on device"),
        (Stdio::from(closed), "Broken pipe"),
    ] {
        let path = folder.with("group.journal", b"");
        let mut command = command(&["--journal", &path, "-"]);
        let output = command.stdout(out).stdin(events()).output().unwrap();
        let err = String::from_utf8_lossy(&output.stderr);
        let begins = format!("pankvisolo: cannot write the output: {why}");
        assert!(err.starts_with(&begins), "{err}");
        is_output(&output, 1, "", &err);
        assert_eq!(fs::read(&path).unwrap(), journal_after(1));
    }
}

/// Two events, from the standard input.
fn events() -> Stdio {
    File::open(script("two_topics.txt")).unwrap().into()
}

/// A file that may not grow is as a full disk: the event has no answer, and its batch is a torn tail.
#[test]
fn a_batch_that_cannot_be_stored() {
    let folder = Folder::new("full");
    let joins: String = (0..32)
        .map(|place| format!("join w{place} timeout 300 topics 0\n"))
        .collect();
    folder.with("joins.txt", joins.as_bytes());
    // A block is 512 bytes. Without the trap the command would be stopped.
    let limited = "trap '' XFSZ; ulimit -f 1; exec \"$0\" --journal group.journal joins.txt";
    let mut shell = Command::new("sh");
    shell
        .args(["-c", limited, COMMAND])
        .current_dir(folder.path());
    let output = shell.output().unwrap();
    let printed = String::from_utf8_lossy(&output.stdout);
    let answers = printed.matches("answer  epoch ").count();
    let stored = fs::read(folder.file("group.journal")).unwrap();
    assert_eq!(stored.len(), 512);
    // A batch of a join has 29 bytes and its length here.
    let end = 4 + 30 * answers;
    assert!(end < 512 && 512 < end + 30, "{printed}");
    assert!(printed.ends_with(&format!(
        "\n{:>2}  join w{answers} timeout 300 topics 0\n",
        answers + 1
    )));
    let err = String::from_utf8_lossy(&output.stderr);
    let begins =
        format!("pankvisolo: group.journal: the batch at offset {end} could not be stored, ");
    assert!(
        err.starts_with(&begins) && err.contains("File too large"),
        "{err}"
    );
    assert_eq!(output.status.code(), Some(1));

    let printed = run(&["read", &folder.file("group.journal")]).stdout;
    let tail = 512 - end;
    let ends = format!("
found   {answers} batches in the first {end} bytes
torn    at offset {end}: the last {tail} bytes are an unfinished batch, and are cut off before more is stored
");
    assert!(String::from_utf8_lossy(&printed).ends_with(&ends));
}
