//! What the command was asked to do.

use std::ffi::OsString;
use std::fs::File;
use std::io::{self, BufRead, BufReader};
use std::path::PathBuf;

use crate::words::Word;

#[derive(PartialEq, Eq, Debug)]
pub enum Job {
    Help,
    Version,
    Example,
    Run(Source, Option<Journal>),
    /// Shows the group that a journal has.
    Read(Source),
}

/// Where a script comes from, or a journal that is shown.
#[derive(PartialEq, Eq, Debug)]
pub enum Source {
    BuiltIn,
    Input,
    File(PathBuf),
}

/// The journal that a script's events go on with, and the tick at which it is read.
#[derive(PartialEq, Eq, Debug)]
pub struct Journal {
    pub path: PathBuf,
    pub tick: u32,
}

pub fn job(arguments: Vec<OsString>) -> Result<Job, String> {
    let mut arguments = arguments.into_iter();
    let (mut path, mut tick, mut words) = (None, None, Vec::new());
    while let Some(argument) = arguments.next() {
        match argument.to_str() {
            Some(option @ "--journal") => give(&mut path, option, arguments.next())?,
            Some(option @ "--tick") => give(&mut tick, option, arguments.next())?,
            _ => words.push(argument),
        }
    }
    let journal = journal(path, tick)?;
    let job = job_of_words(words)?;
    match (job, journal) {
        (Job::Run(source, _), journal) => Ok(Job::Run(source, journal)),
        (job, None) => Ok(job),
        _ => Err("--journal goes with a script and with nothing else; try --help".into()),
    }
}

/// What stands behind an option, which is given once.
fn give(given: &mut Option<OsString>, option: &str, value: Option<OsString>) -> Result<(), String> {
    let Some(value) = value else {
        return Err(format!("there is nothing behind {option}; try --help"));
    };
    match given.replace(value) {
        None => Ok(()),
        Some(_) => Err(format!("{option} is given twice")),
    }
}

fn journal(path: Option<OsString>, tick: Option<OsString>) -> Result<Option<Journal>, String> {
    let Some(path) = path else {
        return match tick {
            None => Ok(None),
            Some(_) => Err("--tick is when a journal is read, and there is no --journal".into()),
        };
    };
    if path == "-" {
        return Err("a journal is kept in a file, and - is none; try --help".into());
    }
    let tick = tick.map_or(Ok(0), |tick| ms(&tick.to_string_lossy()))?;
    let path = path.into();
    Ok(Some(Journal { path, tick }))
}

fn ms(text: &str) -> Result<u32, String> {
    let number = Word { text, at: 0 }.number(0..=u32::MAX);
    number.map_err(|fault| format!("--tick: {}; expected {}", fault.wrong, fault.expected))
}

fn job_of_words(words: Vec<OsString>) -> Result<Job, String> {
    let is_read = words.first().is_some_and(|word| word == "read");
    let mut words = words.into_iter().skip(is_read.into());
    let first = words.next();
    if let Some(second) = words.next() {
        let second = second.to_string_lossy();
        return Err(format!("'{second}' is one argument too many; try --help"));
    }
    match first {
        Some(word) if is_read => Ok(Job::Read(source(word, "a file name or -")?)),
        None if is_read => Err("which journal is to be read? expected a file name or -".into()),
        None => Ok(Job::Run(Source::BuiltIn, None)),
        Some(word) => match word.to_str() {
            Some("--help" | "-h") => Ok(Job::Help),
            Some("--version" | "-V") => Ok(Job::Version),
            Some("--example") => Ok(Job::Example),
            _ => {
                let expected = "a file name, -, read, --journal, --help, --version or --example";
                Ok(Job::Run(source(word, expected)?, None))
            }
        },
    }
}

fn source(word: OsString, expected: &str) -> Result<Source, String> {
    match word.to_str() {
        Some("-") => Ok(Source::Input),
        Some(option) if option.starts_with('-') => Err(format!(
            "there is no option '{option}'; expected {expected}"
        )),
        _ => Ok(Source::File(word.into())),
    }
}

impl Source {
    /// What a message calls it.
    pub fn name(&self) -> String {
        match self {
            Source::BuiltIn => "the built-in example".into(),
            Source::Input => "standard input".into(),
            Source::File(path) => path.display().to_string(),
        }
    }

    pub fn open(&self) -> Result<Box<dyn BufRead>, String> {
        match self {
            Source::BuiltIn => Ok(Box::new(crate::EXAMPLE.as_bytes())),
            Source::Input => Ok(Box::new(io::stdin().lock())),
            Source::File(path) => match File::open(path) {
                Ok(file) => Ok(Box::new(BufReader::new(file))),
                Err(error) => Err(format!("cannot open {}: {error}", path.display())),
            },
        }
    }
}

#[cfg(test)]
mod tests {
    use super::*;

    fn job_of(arguments: &[&str]) -> Result<Job, String> {
        job(arguments.iter().map(OsString::from).collect())
    }

    fn kept(source: Source, path: &str, tick: u32) -> Result<Job, String> {
        let path = path.into();
        Ok(Job::Run(source, Some(Journal { path, tick })))
    }

    fn file(name: &str) -> Source {
        Source::File(name.into())
    }

    #[test]
    fn each_argument_has_its_job() {
        assert_eq!(job_of(&[]), Ok(Job::Run(Source::BuiltIn, None)));
        assert_eq!(job_of(&["-"]), Ok(Job::Run(Source::Input, None)));
        assert_eq!(job_of(&["a"]), Ok(Job::Run(file("a"), None)));
        assert_eq!(job_of(&["--help"]), Ok(Job::Help));
        assert_eq!(job_of(&["-h"]), Ok(Job::Help));
        assert_eq!(job_of(&["--version"]), Ok(Job::Version));
        assert_eq!(job_of(&["--example"]), Ok(Job::Example));
        assert_eq!(job_of(&["read", "j"]), Ok(Job::Read(file("j"))));
        assert_eq!(job_of(&["read", "read"]), Ok(Job::Read(file("read"))));
        assert_eq!(job_of(&["read", "-"]), Ok(Job::Read(Source::Input)));
        assert_eq!(job_of(&["./read"]), Ok(Job::Run(file("./read"), None)));
    }

    #[test]
    fn a_journal_and_its_tick_stand_before_or_behind_the_script() {
        assert_eq!(job_of(&["--journal", "j"]), kept(Source::BuiltIn, "j", 0));
        assert_eq!(job_of(&["--journal", "j", "a"]), kept(file("a"), "j", 0));
        assert_eq!(
            job_of(&["-", "--tick", "4294967295", "--journal", "--tick"]),
            kept(Source::Input, "--tick", u32::MAX)
        );
    }

    fn is_refused(arguments: &[&str], why: &str) {
        assert_eq!(job_of(arguments), Err(why.into()));
    }

    #[test]
    fn unknown_options_and_one_argument_too_many() {
        let unknown = "there is no option '--halp'; \
                       expected a file name, -, read, --journal, --help, --version or --example";
        is_refused(&["--halp"], unknown);
        let unknown = "there is no option '-x'; expected a file name or -";
        is_refused(&["read", "-x"], unknown);
        let second = "'b' is one argument too many; try --help";
        is_refused(&["a", "b"], second);
        is_refused(&["read", "a", "b"], second);
        is_refused(&["--help", "b"], second);
    }

    #[test]
    fn read_without_a_journal() {
        let what = "which journal is to be read? expected a file name or -";
        is_refused(&["read"], what);
    }

    #[test]
    fn journals_and_ticks_that_are_none() {
        let nothing = "there is nothing behind --journal; try --help";
        is_refused(&["a", "--journal"], nothing);
        let nothing = "there is nothing behind --tick; try --help";
        is_refused(&["--journal", "j", "--tick"], nothing);
        let twice = "--journal is given twice";
        is_refused(&["--journal", "j", "--journal", "k"], twice);
        let alone = "--tick is when a journal is read, and there is no --journal";
        is_refused(&["a", "--tick", "7"], alone);
        let input = "a journal is kept in a file, and - is none; try --help";
        is_refused(&["--journal", "-"], input);
        let script = "--journal goes with a script and with nothing else; try --help";
        is_refused(&["read", "j", "--journal", "j"], script);
        is_refused(&["--help", "--journal", "j"], script);
        let tick = "--tick: 'soon' is not a number; \
                    expected a whole number from 0 to 4294967295";
        is_refused(&["--journal", "j", "--tick", "soon"], tick);
    }
}
