//! A test that goes on in another process, under limits that this one hasn't.

use std::env;
use std::fs;
use std::os::unix::process::CommandExt;
use std::path::{Path, PathBuf};
use std::process::Command;

use super::folder::Folder;

const PATH: &str = "PANKVISOLO_STORE_OF_CHILD";
const NOBODY: u32 = 65_534;

pub enum Limit {
    None,
    /// It runs as nobody, where this is root.
    NotRoot,
    /// Files get no longer than this.
    FileBlocks(u32),
}

/// The journal that the test is to go on with; None where this is not the child.
pub fn path() -> Option<PathBuf> {
    env::var_os(PATH).map(PathBuf::from)
}

/// Runs the test, by its whole name, in a process of its own in the folder; it must pass.
pub fn run(test: &str, folder: &Folder, journal: &Path, limit: Limit) {
    // Where this program lies, nobody else may be let in. Another process makes the copy: a child that
    // another test starts meanwhile would inherit this one's file, and what is open for writing cannot
    // be run.
    let program = folder.file("test");
    let mut copy = Command::new("cp");
    copy.arg(env::current_exe().unwrap()).arg(&program);
    assert!(copy.status().unwrap().success());
    let before = match limit {
        // A block of the shell's is 512 bytes. Without the trap the process would be stopped.
        Limit::FileBlocks(blocks) => format!("trap '' XFSZ; ulimit -f {blocks};"),
        Limit::None | Limit::NotRoot => String::new(),
    };
    let mut command = Command::new("sh");
    command
        .args(["-c", &format!("{before} exec ./test \"$@\""), "sh"])
        .args([test, "--exact", "--nocapture", "--test-threads=1"])
        .env(PATH, journal)
        .current_dir(folder.path());
    if let (Limit::NotRoot, true) = (limit, is_root(journal)) {
        command.uid(NOBODY);
    }
    let output = command.output().unwrap();
    let said = String::from_utf8_lossy(&output.stdout).into_owned();
    let complained = String::from_utf8_lossy(&output.stderr);
    assert!(output.status.success(), "{said}{complained}");
    assert!(said.contains("1 passed"), "{test} is no test: {said}");
    fs::remove_file(&program).unwrap();
}

/// Whether a file that may not be written can be.
fn is_root(read_only: &Path) -> bool {
    fs::OpenOptions::new().append(true).open(read_only).is_ok()
}
