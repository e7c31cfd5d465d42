//! The speed of the proved coordinator beside that of the plain and of the tuned one, in one process
//! and one run. Times are only printed; nothing depends on them.
#![forbid(unsafe_code)]

mod clock;
mod coordinator;
mod event;
mod journal;
mod options;
mod reading;
mod row;
mod scene;

use std::env;
use std::process::ExitCode;

use options::{Options, HELP};
use row::{Row, HEADING};
use scene::Kind;

const INTRODUCTION: &str = "\
Timed is one call through the public API, with the making of its request: 4,096 bytes and 1,024
entries lent and not cleared between calls, 16 topics of 64 partitions, the 1,024 slots shared
evenly, the members in turn. Where an event changes what the next one would find, each call has a
copy of the group, made outside the timed part. A range target is that of members whose IDs don't
rise as their places do. A round is about 60 ms, in which the three sides take turns batch by batch,
and counts for each side as the median of its batches; the times are medians over the rounds, and
the ratios are theirs: to either baseline and to the quicker of the two, for which lowest and
highest are those of single rounds.";

fn main() -> ExitCode {
    let words: Vec<String> = env::args().skip(1).collect();
    if words.iter().any(|word| word == "--help") {
        println!("{HELP}");
        return ExitCode::SUCCESS;
    }
    match Options::of(words.into_iter()) {
        Ok(options) => {
            print_table(&options);
            print_reading(&options);
            ExitCode::SUCCESS
        }
        Err(why) => {
            eprintln!("bench: {why}\n{HELP}");
            ExitCode::from(2)
        }
    }
}

fn print_table(options: &Options) {
    println!("{INTRODUCTION}\nRounds: {}.\n\n{HEADING}", options.rounds);
    let kinds = Kind::ALL.into_iter();
    for kind in kinds.filter(|kind| kind.name().contains(&options.only)) {
        for &members in &options.sizes {
            println!("{}", Row::measured(kind, members, options.rounds));
        }
    }
}

/// One member alone has nobody to move slots to.
fn print_reading(options: &Options) {
    let sizes = options.sizes.iter().filter(|&&members| members > 1);
    if !reading::NAME.contains(&options.only) {
        return;
    }
    println!("\n{}\n\n{}", reading::INTRODUCTION, reading::HEADING);
    for &members in sizes {
        println!("{}", reading::Row::measured(members, options.rounds));
    }
}
