//! Counts of what a trial went through, so that one that went past something is found out.

use std::fmt;

use crate::coverage::{is_reached, Situation};
use crate::data::{Answer, Event, Turn};
use crate::labels::labels;
use crate::reasons::{Reason, Row};
use crate::trial::Step;

labels! {
    /// Accepted events by kind.
    pub enum Kind {
        Join = "join",
        Rejoin = "join of a known ID",
        Quiet = "ordinary, nothing stored",
        Ordinary = "ordinary, records stored",
        Leave = "leave",
        SweepNone = "sweep of nobody",
        SweepSome = "sweep of some",
        TopicSame = "topic, the same again",
        Topic = "topic, made or raised",
        Install = "install",
    }
}

/// Rows that one event can earn together, in the order in which they must be tried. The last row is
/// taken as earned where nothing at all is lent as a buffer.
pub const ORDER: [(Row, Row); 33] = [
    (Row::Clock, Row::Invalid),
    (Row::Clock, Row::Unknown),
    (Row::Clock, Row::Full),
    (Row::Clock, Row::Fenced),
    (Row::Clock, Row::NotHeld),
    (Row::Clock, Row::EpochEnd),
    (Row::Clock, Row::Room),
    (Row::Invalid, Row::Unknown),
    (Row::Invalid, Row::Full),
    (Row::Invalid, Row::Fenced),
    (Row::Invalid, Row::EpochEnd),
    (Row::Invalid, Row::Room),
    (Row::Unknown, Row::Room),
    (Row::Full, Row::EpochEnd),
    (Row::Full, Row::Room),
    (Row::Fenced, Row::NotHeld),
    (Row::Fenced, Row::EpochEnd),
    (Row::Fenced, Row::Room),
    (Row::NotHeld, Row::EpochEnd),
    (Row::NotHeld, Row::Room),
    (Row::TargetLength, Row::Stale),
    (Row::TargetLength, Row::Already),
    (Row::TargetLength, Row::TargetEntry),
    (Row::TargetLength, Row::Room),
    (Row::Stale, Row::Already),
    (Row::Stale, Row::TargetEntry),
    (Row::Stale, Row::Room),
    (Row::Already, Row::TargetEntry),
    (Row::Already, Row::Room),
    (Row::TargetEntry, Row::Room),
    (Row::BadTopic, Row::EpochEnd),
    (Row::BadTopic, Row::Room),
    (Row::EpochEnd, Row::Room),
];

#[derive(Clone)]
pub struct Tally {
    pub runs: u64,
    pub events: u64,
    /// Of the events, those of three rounds.
    pub events_in_rounds: u64,
    pub rounds: u64,
    /// Of the three rounds, those in which something had to move.
    pub busy_rounds: u64,
    /// Answers that never reached the honest client who had sent the heartbeat.
    pub lost_answers: u64,
    /// Range targets compared, and of them those of which installs were tried.
    pub ranges: u64,
    pub ranges_tried: u64,
    accepted: [u64; Kind::ALL.len()],
    refused: [u64; Reason::ALL.len()],
    /// By the row given and a later one earned besides.
    pairs: [[u64; Row::ALL.len()]; Row::ALL.len()],
    situations: [u64; Situation::ALL.len()],
}

impl Default for Tally {
    fn default() -> Tally {
        Tally {
            runs: 0,
            events: 0,
            events_in_rounds: 0,
            rounds: 0,
            busy_rounds: 0,
            lost_answers: 0,
            ranges: 0,
            ranges_tried: 0,
            accepted: [0; Kind::ALL.len()],
            refused: [0; Reason::ALL.len()],
            pairs: [[0; Row::ALL.len()]; Row::ALL.len()],
            situations: [0; Situation::ALL.len()],
        }
    }
}

impl Tally {
    pub fn new() -> Tally {
        Tally::default()
    }

    pub fn count(&mut self, turn: &Turn, step: &Step) {
        self.events += 1;
        self.ranges += u64::from(step.range_is_new);
        match step.earned.due {
            Some(reason) => self.count_refusal(reason, turn, step),
            None => self.accepted[kind(turn, step) as usize] += 1,
        }
        for &situation in Situation::ALL {
            self.situations[situation as usize] += u64::from(is_reached(situation, turn, step));
        }
    }

    fn count_refusal(&mut self, reason: Reason, turn: &Turn, step: &Step) {
        self.refused[reason as usize] += 1;
        let pairs = &mut self.pairs[reason.row() as usize];
        for besides in &step.earned.besides {
            pairs[besides.row() as usize] += 1;
        }
        if turn.buffer == 0 {
            pairs[Row::Room as usize] += 1;
        }
    }

    pub fn accepted(&self, kind: Kind) -> u64 {
        self.accepted[kind as usize]
    }

    pub fn refused(&self, reason: Reason) -> u64 {
        self.refused[reason as usize]
    }

    pub fn row(&self, row: Row) -> u64 {
        let of_row = Reason::ALL.iter().filter(|reason| reason.row() == row);
        of_row.map(|&reason| self.refused(reason)).sum()
    }

    /// Events that earned both rows and got the first.
    pub fn pair(&self, first: Row, second: Row) -> u64 {
        self.pairs[first as usize][second as usize]
    }

    pub fn reached(&self, situation: Situation) -> u64 {
        self.situations[situation as usize]
    }

    /// All that was never met, in words.
    pub fn never(&self) -> Vec<String> {
        let mut never = Vec::new();
        for &reason in Reason::ALL {
            if self.refused(reason) == 0 {
                never.push(format!("{}: {}", reason.row().label(), reason.label()));
            }
        }
        for (first, second) in ORDER {
            if self.pair(first, second) == 0 {
                never.push(format!("{} before {}", first.label(), second.label()));
            }
        }
        for &kind in Kind::ALL {
            if self.accepted(kind) == 0 {
                never.push(format!("accepted: {}", kind.label()));
            }
        }
        for &situation in Situation::ALL {
            if self.reached(situation) == 0 {
                never.push(format!("reached: {}", situation.label()));
            }
        }
        if self.busy_rounds == 0 {
            never.push("three rounds with something to move".into());
        }
        if self.lost_answers == 0 {
            never.push("an answer that got lost".into());
        }
        if self.ranges == 0 {
            never.push("a range target compared".into());
        }
        if self.ranges_tried == 0 {
            never.push("a range target of which installs were tried".into());
        }
        never
    }
}

impl fmt::Display for Tally {
    fn fmt(&self, f: &mut fmt::Formatter) -> fmt::Result {
        let (events, runs) = (self.events, self.runs);
        let (rounds, in_rounds) = (self.rounds, self.events_in_rounds);
        let (busy, lost) = (self.busy_rounds, self.lost_answers);
        let (ranges, tried) = (self.ranges, self.ranges_tried);
        writeln!(f, "{events:>10}  events in {runs} runs")?;
        writeln!(f, "{in_rounds:>10}  of them in {rounds} times three rounds")?;
        writeln!(f, "{busy:>10}  of the three rounds had something to move")?;
        writeln!(f, "{lost:>10}  answers got lost")?;
        writeln!(f, "{ranges:>10}  range targets compared")?;
        writeln!(f, "{tried:>10}  of them installed on copies")?;
        writeln!(f, "\nAccepted")?;
        for &kind in Kind::ALL {
            writeln!(f, "{:>10}  {}", self.accepted(kind), kind.label())?;
        }
        writeln!(f, "\nRefused")?;
        for &row in Row::ALL {
            writeln!(f, "{:>10}  {}", self.row(row), row.label())?;
            for &reason in Reason::ALL.iter().filter(|reason| reason.row() == row) {
                writeln!(f, "{:>22}  {}", self.refused(reason), reason.label())?;
            }
        }
        writeln!(f, "\nRefused, with a later row earned besides")?;
        for (first, second) in ORDER {
            let (count, first, second) = (self.pair(first, second), first.label(), second.label());
            writeln!(f, "{count:>10}  {first}, before {second}")?;
        }
        writeln!(f, "\nReached")?;
        for &situation in Situation::ALL {
            writeln!(f, "{:>10}  {}", self.reached(situation), situation.label())?;
        }
        Ok(())
    }
}

fn kind(turn: &Turn, step: &Step) -> Kind {
    let is_stored = step.reply.written > 0;
    match (&turn.event, step.reply.answer) {
        (Event::Heartbeat(_), Answer::Left) => Kind::Leave,
        (Event::Heartbeat(beat), _) if beat.epoch == 0 => {
            if step.before.member(&beat.id).is_some() {
                Kind::Rejoin
            } else {
                Kind::Join
            }
        }
        (Event::Heartbeat(_), _) if is_stored => Kind::Ordinary,
        (Event::Heartbeat(_), _) => Kind::Quiet,
        (Event::Sweep { .. }, Answer::Swept(0)) => Kind::SweepNone,
        (Event::Sweep { .. }, _) => Kind::SweepSome,
        (Event::Topic { .. }, _) if is_stored => Kind::Topic,
        (Event::Topic { .. }, _) => Kind::TopicSame,
        (Event::Install { .. }, _) => Kind::Install,
    }
}

#[cfg(test)]
mod tests {
    use super::*;

    #[test]
    fn a_trial_of_no_events_has_missed_every_refusal_and_range_target() {
        let never = Tally::new().never();
        for &reason in Reason::ALL {
            let missed = format!("{}: {}", reason.row().label(), reason.label());
            assert!(never.contains(&missed), "{missed}");
        }
        for missed in [
            "a range target compared",
            "a range target of which installs were tried",
        ] {
            assert!(never.contains(&missed.into()), "{missed}");
        }
    }
}
