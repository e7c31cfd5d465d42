//! Files that are no journals: they are left byte for byte, and the error has path and offset.

use std::fs;
use std::io::ErrorKind;
use std::os::unix::fs::PermissionsExt;
use std::path::Path;

use pankvisolo::journal::Store;

use super::child::{self, Limit};
use super::folder::Folder;
use super::host::hex;
use super::morning::{after, file_after};

fn error(path: &Path) -> (ErrorKind, String) {
    let Err(error) = Store::open(path, 1_000) else {
        panic!("{} was opened", path.display());
    };
    let said = error.to_string();
    let begins = format!("{}: ", path.display());
    let said = said.strip_prefix(&begins).expect("the path");
    (error.kind(), said.into())
}

fn is_refused(folder: &Folder, name: &str, file: &[u8], offset: usize, why: &str) {
    let path = folder.with(name, file);
    let written = fs::metadata(&path)
        .and_then(|data| data.modified())
        .unwrap();
    let said = format!("the journal is refused at offset {offset}: {why}; it is left as it is");
    assert_eq!(error(&path), (ErrorKind::InvalidData, said), "{name}");
    assert_eq!(fs::read(&path).unwrap(), file, "{name}");
    let now = fs::metadata(&path).and_then(|data| data.modified());
    assert_eq!(now.unwrap(), written, "{name}");
}

#[test]
fn a_refused_journal_is_left_as_it_is() {
    let folder = Folder::new("refused");
    let heading = "it does not begin with GRJ1";
    for (name, file) in [
        ("another edition", &b"GRJ2"[..]),
        ("text", b"# a script"),
        ("a byte", b"X"),
        ("almost", b"GRj"),
    ] {
        is_refused(&folder, name, file, 0, heading);
    }
    let batch = "no event of the group so far would have written what stands there";
    let morning = file_after(11);
    let end = morning.len();
    for (name, more) in [
        ("no length", "00"),
        ("too long", "81 20"),
        ("a length in too many bytes", "86 00 08 01 02 01 02 00"),
        ("the last batch once more", "06 08 01 02 01 02 00"),
        ("no batch, and a torn one", "01 03 07 08"),
    ] {
        let file = [&morning[..], &hex(more)].concat();
        is_refused(&folder, name, &file, end, batch);
    }
    let (before, after) = (file_after(3).len(), file_after(4).len());
    let without_p4 = [&morning[..before], &morning[after..]].concat();
    let p8 = before + file_after(6).len() - after;
    is_refused(&folder, "without P4", &without_p4, p8, batch);
}

#[test]
fn what_is_no_file() {
    let folder = Folder::new("no-file");
    let lacking = folder.file("lacking").join("group.journal");
    let (kind, said) = error(&lacking);
    assert_eq!(kind, ErrorKind::NotFound);
    let begins = "the journal cannot be opened: No such file or directory";
    assert!(said.starts_with(begins), "{said}");
    assert!(!folder.file("lacking").exists());

    let (kind, said) = error(folder.path());
    assert_eq!(kind, ErrorKind::IsADirectory);
    assert!(said.starts_with("the journal cannot be opened: Is a directory"));

    for device in ["/dev/full", "/dev/null", "/dev/zero"] {
        let (kind, said) = error(Path::new(device));
        assert_eq!(kind, ErrorKind::InvalidInput);
        assert_eq!(said, "a journal is a regular file, and this is none");
    }
}

/// Root may write to any file, and so somebody else tries it.
#[test]
fn a_file_that_may_not_be_written() {
    if let Some(path) = child::path() {
        let (kind, said) = error(&path);
        assert_eq!(kind, ErrorKind::PermissionDenied);
        let begins = "the journal cannot be opened: Permission denied";
        return assert!(said.starts_with(begins), "{said}");
    }
    let folder = Folder::new("read-only");
    let file = file_after(11);
    let path = folder.with("group.journal", &file);
    fs::set_permissions(&path, fs::Permissions::from_mode(0o444)).unwrap();
    child::run(
        "refusals::a_file_that_may_not_be_written",
        &folder,
        &path,
        Limit::NotRoot,
    );
    assert_eq!(fs::read(&path).unwrap(), file);
}

#[test]
fn a_journal_that_is_open_already() {
    let says = |path: &Path| {
        let said = "the journal is open already, in this process or another";
        assert_eq!(error(path), (ErrorKind::WouldBlock, said.into()));
    };
    if let Some(path) = child::path() {
        return says(&path);
    }
    let folder = Folder::new("lock");
    let path = folder.file("group.journal");
    let store = after(5, &path);
    says(&path);
    child::run(
        "refusals::a_journal_that_is_open_already",
        &folder,
        &path,
        Limit::None,
    );
    assert_eq!(fs::read(&path).unwrap(), file_after(5));
    drop(store);
    assert!(Store::open(&path, 1_000).is_ok());
}
