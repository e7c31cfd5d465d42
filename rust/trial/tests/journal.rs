//! The short trials of journals in the gate: plain's two judges of batches agree, what was written
//! reads back whatever byte it is cut at, and the proved reader reads every file as plain's does. The
//! long ones are a command (src/bin/journal.rs).

use trial::generate::PROFILES;
use trial::journal::agree;
use trial::journal::compare::{self, compare};
use trial::journal::tally::{Found, Tally};
use trial::journal::{Journal, Reads};
use trial::random::Random;
use trial::sides::{InParts, Proved, Reference};

/// A debug build gets a glimpse.
const PART: u64 = if cfg!(debug_assertions) { 20 } else { 1 };
const FILES: u64 = 40_000 / PART;
const BATCHES: u64 = 60_000 / PART;
const BATCHES_CUT: usize = if cfg!(debug_assertions) { 5 } else { 25 };

fn without_difference<S: Reads>(seed: u64, files: u64) -> Tally {
    let plan = compare::Plan {
        seed,
        files,
        journal: None,
    };
    match compare::explore::<S, Reference>(plan, |_| ()) {
        Ok(tally) => tally,
        Err(report) => panic!("{report}"),
    }
}

#[test]
fn the_proved_reader_reads_as_plains_does() {
    let tally = without_difference::<Proved>(1, FILES);
    println!("{tally}");
    if !cfg!(debug_assertions) {
        assert_eq!(tally.never(), Vec::<String>::new());
    }
    assert_eq!(<Proved as Reads>::HEADING, <Reference as Reads>::HEADING);
    for size in (0..300).chain(4_000..4_200) {
        let records = vec![7; size];
        for room in [size, size + 1, size + 2, size + 3] {
            let (mut ours, mut theirs) = (vec![0x5A; room], vec![0x5A; room]);
            let framed = Proved::frame(&records, &mut ours);
            assert_eq!(framed, Reference::frame(&records, &mut theirs), "{size}");
            assert_eq!(ours, theirs, "{size}");
        }
    }
}

#[test]
fn the_proved_reader_reads_the_same_in_parts() {
    let tally = without_difference::<InParts>(3, FILES / 4);
    println!("{tally}");
}

/// Plain's reader alone: nothing that every reading must be is missed.
#[test]
fn plain_reads_what_was_written_and_no_kind_of_file_is_missed() {
    let tally = without_difference::<Reference>(2, FILES / 2);
    println!("{tally}");
    if !cfg!(debug_assertions) {
        assert_eq!(tally.never(), Vec::<String>::new());
    }
}

#[test]
fn plain_reads_every_profile_cut_at_every_byte() {
    for (index, profile) in PROFILES.iter().enumerate() {
        let journal = Journal::made(profile, Random::new(index as u64), BATCHES_CUT);
        for cut in 0..=journal.bytes.len() {
            let file = journal.cut(cut);
            let (found, batches) = compare::<Reference, Reference>(&journal, &file, 5).unwrap();
            let whole = journal.whole_at(cut);
            assert_eq!(batches, whole as u64);
            let is_whole = cut >= 4 && journal.end_of(whole) == cut;
            assert_eq!(found == Found::Whole, is_whole);
        }
    }
}

#[test]
fn the_two_judges_agree() {
    let plan = agree::Plan {
        seed: 1,
        batches: BATCHES,
    };
    let tally = agree::explore(plan, plain::journal::read_batch, |_| ());
    let tally = tally.unwrap_or_else(|what| panic!("{what}"));
    println!("{tally}");
    if !cfg!(debug_assertions) {
        assert_eq!(tally.never(), Vec::<String>::new());
    }
}
