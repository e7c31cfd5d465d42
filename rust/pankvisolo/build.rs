//! Links the archive of the proved functions. `tools/archive` makes it of the static library
//! `pankvisolo_c` and writes it below the repository's target/; where it is missing, or older than a
//! file that it is made of, that command is run here first. From nothing it proves every crate below
//! `pankvisolo_c`, which takes minutes.
//!
//! A copy of the archive is what is linked, so that cargo doesn't miss it where target/ is removed.

use std::collections::BTreeSet;
use std::env;
use std::fs;
use std::io;
use std::path::{Path, PathBuf};
use std::process::{Command, ExitCode, Stdio};
use std::time::SystemTime;

const CRATE: &str = "pankvisolo_c";
const COMMAND: &str = "tools/archive";

fn main() -> ExitCode {
    match link() {
        Ok(()) => ExitCode::SUCCESS,
        Err(why) => {
            eprintln!("pankvisolo: {why}");
            ExitCode::FAILURE
        }
    }
}

fn link() -> Result<(), String> {
    // The archive is for x86-64 alone: rt compiles for no other processor.
    let processor = variable("CARGO_CFG_TARGET_ARCH")?;
    if processor != "x86_64" {
        return Err(format!(
            "the proved coordinator is compiled for x86_64 Linux, and this build is for {processor}"
        ));
    }
    let root = Path::new(&variable("CARGO_MANIFEST_DIR")?).join("../..");
    let root = root.canonicalize().map_err(about(&root))?;
    let archive = root.join("target/staticlib/libpankvisolo.a");
    let sources = sources(&root)?;
    if is_missing_or_old(&archive, &sources)? {
        prove(&root, &archive)?;
    }
    let folder = PathBuf::from(variable("OUT_DIR")?);
    let copy = folder.join("libpankvisolo.a");
    fs::copy(&archive, &copy).map_err(about(&archive))?;
    println!("cargo:rerun-if-changed=build.rs");
    for source in &sources {
        println!("cargo:rerun-if-changed={}", source.display());
    }
    println!("cargo:rustc-link-search=native={}", folder.display());
    println!("cargo:rustc-link-lib=static=pankvisolo");
    println!("cargo:rustc-env=PANKVISOLO_ARCHIVE={}", copy.display());
    Ok(())
}

/// crates.txt, and what `pankvisolo_c` and all that it depends on in this repository are made of.
fn sources(root: &Path) -> Result<Vec<PathBuf>, String> {
    let list = root.join("crates.txt");
    let text = fs::read_to_string(&list).map_err(about(&list))?;
    let mut reached = BTreeSet::new();
    let mut ahead = vec![CRATE];
    while let Some(name) = ahead.pop() {
        // A library of the kit has no line of its own.
        if let Some(depends_on) = line_of(&text, name) {
            if reached.insert(name) {
                ahead.extend(depends_on.split_whitespace());
            }
        }
    }
    let crates = root.join("crates");
    let parts = |name| ["src", "specs", "proofs"].map(|part| crates.join(name).join(part));
    let folders = reached.into_iter().flat_map(parts);
    let there = folders.filter(|folder| folder.is_dir());
    Ok([list].into_iter().chain(there).collect())
}

/// What the crate's line, `NAME: DEP DEP ..` or `NAME staticlib: DEP DEP ..`, says after the colon.
fn line_of<'a>(crates: &'a str, name: &str) -> Option<&'a str> {
    let lines = crates
        .lines()
        .filter_map(|line| line.split('#').next()?.split_once(':'));
    let mut of_name = lines.filter(|(of, _)| of.split_whitespace().next() == Some(name));
    of_name.next().map(|(_, depends_on)| depends_on)
}

fn is_missing_or_old(archive: &Path, sources: &[PathBuf]) -> Result<bool, String> {
    if !archive.exists() {
        return Ok(true);
    }
    let made = changed(archive)?;
    for source in sources {
        if made < newest(source)? {
            return Ok(true);
        }
    }
    Ok(false)
}

/// When the file, or any file or folder below the folder, last changed. A folder changes where a file
/// comes or goes.
fn newest(path: &Path) -> Result<SystemTime, String> {
    let mut latest = changed(path)?;
    if path.is_dir() {
        for entry in fs::read_dir(path).map_err(about(path))? {
            let entry = entry.map_err(about(path))?;
            latest = latest.max(newest(&entry.path())?);
        }
    }
    Ok(latest)
}

fn changed(path: &Path) -> Result<SystemTime, String> {
    let data = fs::metadata(path).map_err(about(path))?;
    data.modified().map_err(about(path))
}

fn prove(root: &Path, archive: &Path) -> Result<(), String> {
    let output = Command::new(root.join(COMMAND))
        .current_dir(root)
        .stdin(Stdio::null())
        .output()
        .map_err(|error| format!("{COMMAND} cannot be started: {error}"))?;
    if !output.status.success() {
        let [said, complained] = [&output.stdout, &output.stderr];
        return Err(format!(
            "{COMMAND} failed in {} ({}), so there is no archive of the proved functions to link. \
             It said:\n{}{}",
            root.display(),
            output.status,
            String::from_utf8_lossy(said),
            String::from_utf8_lossy(complained)
        ));
    }
    if !archive.exists() {
        let archive = archive.display();
        return Err(format!("{COMMAND} ended well and left no {archive}"));
    }
    Ok(())
}

fn variable(name: &str) -> Result<String, String> {
    env::var(name).map_err(|error| format!("the variable {name} that cargo sets: {error}"))
}

fn about(path: &Path) -> impl Fn(io::Error) -> String {
    let path = path.display().to_string();
    move |error| format!("{path}: {error}")
}
