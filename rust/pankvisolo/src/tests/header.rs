//! What the header says of the archive besides its structs and functions.

use std::collections::BTreeSet;
use std::process::Command;

use super::c_compiler::{output_of, output_of_text, run, Language};
use crate::ffi;
use crate::journal::HEADING;

const HEADER: &str = include_str!("../../../../include/pankvisolo.h");
const LANGUAGES: [Language; 3] = [Language::C99, Language::C11, Language::Cpp17];

/// Twice, so that its guard is tried, and with nothing before it.
#[test]
fn it_needs_no_other_header_and_gives_no_warning() {
    let text =
        "#include \"pankvisolo.h\"\n#include \"pankvisolo.h\"\nint main(void) { return 0; }\n";
    for language in LANGUAGES {
        assert_eq!(output_of_text(language, text), "");
    }
}

#[test]
fn its_version_is_this_packages() {
    let text = r#"
#include <stdio.h>
#include "pankvisolo.h"
int main(void) {
    printf("%d.%d.%d %s", PANKVISOLO_VERSION_MAJOR, PANKVISOLO_VERSION_MINOR, PANKVISOLO_VERSION_PATCH, PANKVISOLO_VERSION);
    return 0;
}
"#;
    let version = env!("CARGO_PKG_VERSION");
    let printed = output_of_text(Language::C11, text);
    assert_eq!(printed, format!("{version} {version}"));
}

#[test]
fn its_heading_and_verdicts_are_those_declared_here() {
    let text = r#"
#include <stdio.h>
#include "pankvisolo.h"
int main(void) {
    printf("%s %d %d %d %d", PANKVISOLO_JOURNAL_HEADING, PANKVISOLO_WHOLE, PANKVISOLO_TORN, PANKVISOLO_REFUSED, PANKVISOLO_BATCH);
    return 0;
}
"#;
    let heading = String::from_utf8_lossy(&HEADING).into_owned();
    let numbers =
        [ffi::WHOLE, ffi::TORN, ffi::REFUSED, ffi::BATCH].map(|number| number.to_string());
    let printed = output_of_text(Language::C11, text);
    assert_eq!(printed, format!("{heading} {}", numbers.join(" ")));
}

/// A C++ program cannot tell a struct from a function of the same name.
#[test]
fn no_struct_has_the_name_of_a_function() {
    let words: Vec<&str> = HEADER.split_whitespace().collect();
    let named = |before: &str| -> BTreeSet<&str> {
        let pairs = words.windows(2).filter(|pair| pair[0] == before);
        pairs.map(|pair| pair[1]).collect()
    };
    let structs = named("struct");
    let functions = words.iter().filter_map(|word| word.split_once('('));
    let functions = functions.map(|(name, _)| name);
    let is_name = |name: &&str| name.chars().all(|c| c.is_ascii_lowercase() || c == '_');
    let functions: BTreeSet<&str> = functions
        .filter(|name| name.starts_with("pankvisolo_"))
        .filter(is_name)
        .collect();
    assert_eq!(functions.len(), 11, "{functions:?}");
    assert!(structs.contains("pankvisolo_group"));
    assert!(structs.is_disjoint(&functions));
}

/// What the archive leaves to be found elsewhere is what the header says it needs.
#[test]
fn it_names_what_the_archive_needs() {
    let printed = run(Command::new("nm").args(["-u", env!("PANKVISOLO_ARCHIVE")]));
    let undefined = printed
        .lines()
        .filter_map(|line| line.trim().strip_prefix("U "));
    let undefined: BTreeSet<&str> = undefined.collect();

    let text = HEADER.replace("\n *", "");
    let (_, rest) = text.split_once("library it needs ").expect("what it needs");
    let (said, _) = rest.split_once(", and nothing else").expect("nothing else");
    let said = said
        .split([',', ' '])
        .filter(|word| !matches!(*word, "" | "and"));
    assert_eq!(undefined, said.collect());
}

/// The program fails where a call takes more stack than the header says.
#[test]
fn a_call_takes_no_more_stack_than_it_says() {
    println!("{}", output_of("stack"));
}

/// The program fails where an event isn't answered as it should be, or crashes.
#[test]
fn a_thread_with_a_small_stack_will_do() {
    println!("{}", output_of("small_stack"));
}

/// A pointer may be NULL where its length is 0.
#[test]
fn null_is_an_empty_list_or_buffer() {
    assert_eq!(output_of("null"), "0 0 0 1006 1003\n1 0, 0 0, 0, 0 0, 0\n");
}
