//! The short trials of the gate: a million random events without a difference between the proved
//! coordinator and the plain one, and none of them wasted: every refusal of 01's table, in every
//! order in which two can meet, every kind of event and every turn they can take is met. And a part
//! of that for the tuned one. The long trials are a command (src/main.rs).

use trial::explore::{explore, Plan};
use trial::sides::{Proved, Reference, Tuned};
use trial::tally::Tally;
use trial::Coordinator;

/// About twenty seconds in a release build. A debug build is far slower, and gets a glimpse.
const EVENTS: u64 = if cfg!(debug_assertions) {
    30_000
} else {
    1_000_000
};
/// The tuned one, which is slow to look at, gets a part of them.
const EVENTS_OF_TUNED: u64 = EVENTS / 10;

fn without_difference<S: Coordinator>(seed: u64, events: u64) -> Tally {
    let plan = Plan {
        seed,
        events,
        run: None,
    };
    match explore::<S, Reference>(plan, |_| ()) {
        Ok(tally) => {
            assert!(tally.ranges > 0 && tally.ranges_tried > 0, "{tally}");
            tally
        }
        Err(report) => panic!("{report}"),
    }
}

#[test]
fn no_difference_and_nothing_missed() {
    let tally = without_difference::<Proved>(848, EVENTS);
    println!("{tally}");
    if !cfg!(debug_assertions) {
        assert_eq!(tally.never(), Vec::<String>::new());
    }
}

#[test]
fn no_difference_in_the_tuned_one() {
    without_difference::<Tuned>(849, EVENTS_OF_TUNED);
}

#[test]
fn the_same_seed_gives_the_same_trial() {
    let trial = || without_difference::<Proved>(5, 10_000).to_string();
    assert_eq!(trial(), trial());
}
