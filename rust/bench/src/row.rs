//! A row of the table: one kind of event at one size of group, on every side.

use std::fmt;

use crate::clock::{medians, round};
use crate::coordinator::{Coordinator, Lent, Outcome};
use crate::event::Event;
use crate::scene::{Kind, Scene};

/// Nanoseconds of a call.
#[derive(Clone, Copy)]
struct Times {
    proved: f64,
    plain: f64,
    tuned: f64,
}

impl Times {
    fn of([proved, plain, tuned]: [f64; 3]) -> Times {
        Times {
            proved,
            plain,
            tuned,
        }
    }

    fn to_plain(self) -> f64 {
        self.proved / self.plain
    }

    fn to_tuned(self) -> f64 {
        self.proved / self.tuned
    }

    /// To the quicker of the two baselines.
    fn to_quicker(self) -> f64 {
        self.proved / self.plain.min(self.tuned)
    }
}

pub struct Row {
    kind: Kind,
    members: u8,
    times: Times,
    /// Of single rounds, to the quicker baseline.
    lowest: f64,
    highest: f64,
}

impl Row {
    pub fn measured(kind: Kind, members: u8, rounds: usize) -> Row {
        let proved: Scene<pankvisolo::Group> = Scene::new(kind, members);
        let plain: Scene<plain::Group> = Scene::new(kind, members);
        let tuned: Scene<tuned::Group> = Scene::new(kind, members);
        check(&proved, &plain);
        check(&proved, &tuned);
        let mut lent = Lent::new();
        let rounds = (0..rounds).map(|_| round([&proved, &plain, &tuned], &mut lent));
        Row::of(kind, members, &rounds.collect::<Vec<_>>())
    }

    /// Of each round: the times of the proved side, the plain and the tuned one.
    fn of(kind: Kind, members: u8, rounds: &[[f64; 3]]) -> Row {
        let ratios = || rounds.iter().map(|times| Times::of(*times).to_quicker());
        Row {
            kind,
            members,
            times: Times::of(medians(rounds)),
            lowest: ratios().fold(f64::INFINITY, f64::min),
            highest: ratios().fold(0.0, f64::max),
        }
    }
}

pub const HEADING: &str = "\
| event | members | proved, ns | plain, ns | tuned, ns | to plain | to tuned | to the quicker | lowest | highest |
|---|--:|--:|--:|--:|--:|--:|--:|--:|--:|";

impl fmt::Display for Row {
    fn fmt(&self, f: &mut fmt::Formatter) -> fmt::Result {
        let (name, members, times) = (self.kind.name(), self.members, self.times);
        write!(f, "| {name} | {members} ")?;
        for nanoseconds in [times.proved, times.plain, times.tuned] {
            write!(f, "| {nanoseconds:.0} ")?;
        }
        for ratio in [times.to_plain(), times.to_tuned(), times.to_quicker()] {
            write!(f, "| {ratio:.2} ")?;
        }
        write!(f, "| {:.2} | {:.2} |", self.lowest, self.highest)
    }
}

/// Each event of the scene does on both sides what the row's name says, and the same.
fn check<C: Coordinator, D: Coordinator>(one: &Scene<C>, other: &Scene<D>) {
    for (left, right) in one.events.iter().zip(&other.events) {
        let (left, right) = (played(&one.group, left), played(&other.group, right));
        let name = one.kind.name();
        assert!(left == right, "{name}: two sides differ");
        let (outcome, written) = (left.outcome, left.records.len());
        let fits = one.kind.is_answered_by(outcome, written);
        assert!(fits, "{name}: {outcome:?} with {written} bytes of records");
    }
}

/// What a call gave.
#[derive(PartialEq, Eq)]
struct Played {
    outcome: Outcome,
    records: Vec<u8>,
    assignment: [u16; 1_024],
    entries: [u8; 1_024],
}

fn played<C: Coordinator>(group: &C, event: &Event) -> Played {
    let mut lent = Lent::new();
    let reply = group.clone().play(event, &mut lent);
    Played {
        outcome: C::outcome(reply),
        records: lent.records[..C::written(reply)].to_vec(),
        assignment: lent.assignment,
        entries: lent.entries,
    }
}

#[cfg(test)]
mod tests {
    use super::*;

    #[test]
    fn every_scene_is_what_its_name_says() {
        for kind in Kind::ALL {
            for members in [1, 2, 8, 32] {
                let proved: Scene<pankvisolo::Group> = Scene::new(kind, members);
                check::<_, plain::Group>(&proved, &Scene::new(kind, members));
                check::<_, tuned::Group>(&proved, &Scene::new(kind, members));
            }
        }
    }

    #[test]
    fn a_row_has_medians_their_ratios_and_the_spread() {
        let rounds = [[30.0, 10.0, 12.0], [20.0, 20.0, 10.0], [90.0, 15.0, 15.0]];
        let row = Row::of(Kind::Quiet, 8, &rounds).to_string();
        let name = "| heartbeat that changes nothing | 8 ";
        let (times, ratios) = ("| 30 | 15 | 12 ", "| 2.00 | 2.50 | 2.50 | 2.00 | 6.00 |");
        assert_eq!(row, [name, times, ratios].concat());
    }
}
