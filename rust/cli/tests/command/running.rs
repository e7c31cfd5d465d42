//! Runs the command, on files of its own.

use std::env;
use std::fs;
use std::io::Write;
use std::path::PathBuf;
use std::process::{self, Command, Output, Stdio};

pub const COMMAND: &str = env!("CARGO_BIN_EXE_pankvisolo");

pub fn command(arguments: &[&str]) -> Command {
    let mut command = Command::new(COMMAND);
    command
        .args(arguments)
        .stdin(Stdio::null())
        .stdout(Stdio::piped())
        .stderr(Stdio::piped());
    command
}

pub fn run(arguments: &[&str]) -> Output {
    command(arguments).output().unwrap()
}

/// The command may be gone before it has read all of it.
pub fn run_on(arguments: &[&str], input: &[u8]) -> Output {
    let mut child = command(arguments).stdin(Stdio::piped()).spawn().unwrap();
    let _ = child.stdin.take().unwrap().write_all(input);
    child.wait_with_output().unwrap()
}

pub fn is_output(output: &Output, status: i32, out: &str, err: &str) {
    assert_eq!(String::from_utf8_lossy(&output.stdout), out);
    assert_eq!(String::from_utf8_lossy(&output.stderr), err);
    assert_eq!(output.status.code(), Some(status));
}

/// Nothing is printed, the status is 2, and what is said begins so; the system's words follow.
pub fn is_refused(output: &Output, begins: &str) {
    let err = String::from_utf8_lossy(&output.stderr);
    assert!(err.starts_with(&format!("pankvisolo: {begins}")), "{err}");
    assert_eq!(err.matches('\n').count(), 1, "{err}");
    is_output(output, 2, "", &err);
}

pub fn script(name: &str) -> String {
    format!("{}/tests/scripts/{name}", env!("CARGO_MANIFEST_DIR"))
}

/// A folder of its own for each test, gone after it.
pub struct Folder {
    path: PathBuf,
}

impl Folder {
    /// Named after its test, so that no two have the same.
    pub fn new(test: &str) -> Folder {
        let name = format!("pankvisolo-command-{}-{test}", process::id());
        let path = env::temp_dir().join(name);
        fs::create_dir_all(&path).unwrap();
        Folder { path }
    }

    pub fn path(&self) -> &str {
        self.path.to_str().unwrap()
    }

    pub fn file(&self, name: &str) -> String {
        format!("{}/{name}", self.path())
    }

    /// A file with these bytes.
    pub fn with(&self, name: &str, bytes: &[u8]) -> String {
        let path = self.file(name);
        fs::write(&path, bytes).unwrap();
        path
    }
}

impl Drop for Folder {
    fn drop(&mut self) {
        // Where it is still in use, the system cleans up.
        let _ = fs::remove_dir_all(&self.path);
    }
}
