//! A coordinator that panics instead of answering is reported like any other.

use trial::data::{Beat, Reply};
use trial::trial::Check;

use super::mutant::*;
use super::{caught, caught_on_both_sides};

/// Panics where a member joins again.
struct PanicsAtRejoin;

impl Mutation for PanicsAtRejoin {
    fn heartbeat(&self, mutant: &mut Mutant, beat: &Beat, lent: &mut Lent) -> Reply {
        let is_member = find(&mutant.group, &beat.id).is_some();
        assert!(beat.epoch != 0 || !is_member, "a member joins again");
        mutant.take(beat, lent)
    }
}

#[test]
fn a_panic_in_an_event() {
    let report = caught(&PanicsAtRejoin);
    assert_eq!(report.fault.check, Check::Panic);
    // A join, and another of the same ID.
    assert_eq!(report.shortest.turns.len(), 2);
    let text = report.to_string();
    let (run, event) = (report.run, report.event);
    let place = format!("FAILED with seed 7, run {run} (");
    assert!(text.starts_with(&place), "{text}");
    assert!(text.contains(&format!("event {event}\n")), "{text}");
    assert!(text.contains("a member joins again"), "{text}");
    caught_on_both_sides(&PanicsAtRejoin, Check::Panic);
}

/// Panics where it is looked at.
struct PanicsWhenShown;

impl Mutation for PanicsWhenShown {
    fn last_tick(&self, mutant: &Mutant) -> u32 {
        let tick = mutant.group.last_tick();
        assert!(mutant.group.epoch() != 2, "no tick");
        tick
    }
}

#[test]
fn a_panic_outside_the_events() {
    let report = caught(&PanicsWhenShown);
    assert_eq!(report.fault.check, Check::Panic);
    caught_on_both_sides(&PanicsWhenShown, Check::Panic);
}
