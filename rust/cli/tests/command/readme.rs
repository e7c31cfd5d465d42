//! What the README shows of the command is what is printed.

use std::process::Command;

use super::morning;
use super::running::*;

const README: &str = include_str!("../../../../README.md");

/// The line of the README that begins so, and what stands below it in its block.
fn block(begins: &str) -> (&'static str, &'static str) {
    let at = README.find(&format!("\n$ {begins}")).unwrap();
    let (line, rest) = README[at + 3..].split_once('\n').unwrap();
    let (block, _) = rest.split_once("```").unwrap();
    (line, block)
}

/// The README leaves out parts at [..] and has the others, in their order, as they are printed.
#[test]
fn the_built_in_example() {
    let (line, shown) = block("./run");
    assert_eq!(line, "./run");
    let mut rest = morning::PRINTED;
    for part in shown.split("[..]\n").filter(|part| !part.is_empty()) {
        let found = rest.split_once(part);
        assert!(found.is_some(), "{part}");
        rest = found.unwrap().1;
    }
}

#[test]
fn the_journal() {
    let folder = Folder::new("readme");
    let (line, shown) = block("./run --journal");
    let mut shell = Command::new("sh");
    shell.args(["-c", &line.replace("./run", COMMAND)]);
    let output = shell.current_dir(folder.path()).output().unwrap();
    is_output(&output, 0, shown, "");
}
