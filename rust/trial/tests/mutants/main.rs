//! The trial can fail: each test alters the plain coordinator, or in `tuned` that one, in one way and
//! shows that it is found out, with a short list of events. Altered on one side, the comparison must
//! see it. Altered alike on both, the comparison sees nothing, and one of the other checks must.

mod bytes;
mod left_over;
mod mutant;
mod numbers;
mod order;
mod panics;
mod range;
mod slots;
mod tuned;

use mutant::{mutate, Mutable, Mutant, Mutation, Unchanged};
use trial::explore::{explore, Plan};
use trial::report::Report;
use trial::shrink::play;
use trial::trial::Check;
use trial::Coordinator;

const PLAN: Plan = Plan {
    seed: 7,
    events: 300_000,
    run: None,
};

const SHORT: usize = 40;

/// Finds out the subject in a trial against the reference, with a list of events that is short,
/// fails when it is played again, and fails the same check.
fn found_out<S: Coordinator, R: Coordinator>() -> Report {
    let Err(report) = explore::<S, R>(PLAN, |_| ()) else {
        panic!("nothing was found out");
    };
    println!("{report}");
    let turns = report.shortest.turns.len();
    assert!(turns <= SHORT, "the shortest list has {turns} events");
    let again = play::<S, R>(&report.shortest).expect("the shortest list fails again");
    assert_eq!(again.fault.check, report.fault.check);
    *report
}

fn caught<G: Mutable>(how: &'static dyn Mutation<G>) -> Report {
    mutate(how);
    found_out::<Mutant<G>, plain::Group>()
}

fn caught_on_both_sides(how: &'static dyn Mutation, check: Check) -> Report {
    mutate(how);
    let report = found_out::<Mutant, Mutant>();
    assert_eq!(report.fault.check, check);
    report
}

/// Altered on one side, and then on both.
fn caught_on_each(how: &'static dyn Mutation, check: Check) {
    caught(how);
    caught_on_both_sides(how, check);
}

fn finds_nothing<S: Coordinator>() {
    let plan = Plan {
        events: 20_000,
        ..PLAN
    };
    assert!(explore::<S, plain::Group>(plan, |_| ()).is_ok());
}

#[test]
fn nothing_is_found_where_nothing_is_altered() {
    mutate::<plain::Group>(&Unchanged);
    finds_nothing::<Mutant>();
}

/// A report names the seed and the run, and goes through the events one a line.
#[test]
fn a_report_can_be_read_and_played_again() {
    let report = caught(&bytes::WrongByte);
    let text = report.to_string();
    assert!(text.contains("FAILED with seed 7, run "), "{text}");
    assert!(text.contains("--seed 7 --run "), "{text}");
    assert!(text.contains("the shortest list found, "), "{text}");
    let events = text.lines().filter(|line| line.contains(" -> ")).count();
    assert_eq!(events, report.shortest.turns.len());

    let alone = Plan {
        run: Some(report.run),
        ..PLAN
    };
    let again = explore::<Mutant, plain::Group>(alone, |_| ());
    assert_eq!(again.err().map(|again| again.event), Some(report.event));
}
