//! Compiles a C program against the header, links the archive, and runs it.

use std::env;
use std::fs;
use std::path::{Path, PathBuf};
use std::process::{self, Command};

/// A language that the header is in, and how the compiler is told.
#[derive(Clone, Copy)]
pub enum Language {
    C99,
    C11,
    Cpp17,
}

impl Language {
    /// The compiler is `cc` or `c++`, or what the variables CC and CXX say.
    fn compiler(self) -> String {
        let (variable, usual) = match self {
            Language::C99 | Language::C11 => ("CC", "cc"),
            Language::Cpp17 => ("CXX", "c++"),
        };
        env::var(variable).unwrap_or_else(|_| usual.into())
    }

    fn options(self) -> &'static [&'static str] {
        match self {
            Language::C99 => &["-x", "c", "-std=c99", "-Wstrict-prototypes"],
            Language::C11 => &["-x", "c", "-std=c11", "-Wstrict-prototypes"],
            Language::Cpp17 => &["-x", "c++", "-std=c++17"],
        }
    }
}

const WARNINGS: [&str; 12] = [
    "-Wall",
    "-Wextra",
    "-Wpedantic",
    "-Wconversion",
    "-Wsign-conversion",
    "-Wshadow",
    "-Wcast-align",
    "-Wcast-qual",
    "-Wundef",
    "-Wredundant-decls",
    "-Wwrite-strings",
    "-Werror",
];

/// What the program c/NAME.c prints.
pub fn output_of(name: &str) -> String {
    output_in(Language::C11, name)
}

/// What the program c/NAME.c prints where it is taken for this language.
pub fn output_in(language: Language, name: &str) -> String {
    let folder = Path::new(env!("CARGO_MANIFEST_DIR")).join("c");
    output_of_file(language, &folder.join(name).with_extension("c"))
}

/// What the program with this text prints.
pub fn output_of_text(language: Language, text: &str) -> String {
    let source = temporary("text").with_extension("c");
    fs::write(&source, text).expect("the temporary folder takes files");
    let printed = output_of_file(language, &source);
    fs::remove_file(&source).expect("the text is still there");
    printed
}

/// A path that no other test has, in this process or another.
fn temporary(name: &str) -> PathBuf {
    use std::sync::atomic::{AtomicU32, Ordering};
    static MADE: AtomicU32 = AtomicU32::new(0);
    let (process, number) = (process::id(), MADE.fetch_add(1, Ordering::Relaxed));
    env::temp_dir().join(format!("pankvisolo-{process}-{number}-{name}"))
}

fn output_of_file(language: Language, source: &Path) -> String {
    let name = source.file_stem().expect("a source has a name");
    let program = temporary(&name.to_string_lossy());
    let include = Path::new(env!("CARGO_MANIFEST_DIR")).join("../../include");
    let mut compile = Command::new(language.compiler());
    compile
        .args(language.options())
        .args(WARNINGS)
        .arg("-O2")
        .arg("-I")
        .arg(include)
        .arg(source)
        .args(["-x", "none"])
        .arg(env!("PANKVISOLO_ARCHIVE"))
        .arg("-pthread")
        .arg("-o")
        .arg(&program);
    run(&mut compile);
    let printed = run(&mut Command::new(&program));
    fs::remove_file(&program).expect("the program is still there");
    printed
}

/// What the command prints; it must succeed.
pub fn run(command: &mut Command) -> String {
    let output = match command.output() {
        Ok(output) => output,
        Err(error) => panic!("{command:?} cannot be started: {error}"),
    };
    let [printed, complaint] =
        [output.stdout, output.stderr].map(|text| String::from_utf8_lossy(&text).into_owned());
    let status = output.status;
    assert!(
        status.success(),
        "{command:?} failed ({status}):\n{printed}{complaint}"
    );
    printed
}
