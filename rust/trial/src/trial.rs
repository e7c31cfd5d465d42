//! One event after another through both coordinators, with every check after each.

use std::fmt;
use std::mem;

use crate::coordinator::Coordinator;
use crate::data::{Answer, Reply, Start, Turn, NO_PLACE, SLOTS};
use crate::force::Force;
use crate::ledger::Ledger;
use crate::lent::Lent;
use crate::panics::caught;
use crate::range;
use crate::reader::{self, Record};
use crate::reasons::{self, Reason};
use crate::snapshot::Snapshot;
use crate::stored::Stored;

/// Which check an event failed, and how.
#[derive(Clone, PartialEq, Eq, Debug)]
pub struct Fault {
    pub check: Check,
    pub what: String,
}

#[derive(Clone, Copy, PartialEq, Eq, Debug)]
pub enum Check {
    /// The two answers, or the numbers of bytes written.
    Answer,
    /// The lent buffers or lists after the event.
    Lent,
    /// The two groups by their parts.
    Group,
    /// A refusal that changed something, a slot held twice, a made-up number swept.
    Change,
    /// 01's table, read a third time.
    Table,
    /// Stored bytes that are no records, or from which another group is read.
    Records,
    /// 01's ledger.
    Ledger,
    /// Two range targets, one that is against request 4's words, or one that no install takes.
    Range,
    /// The three rounds.
    Rounds,
    /// A coordinator that panicked instead of answering.
    Panic,
}

impl Fault {
    pub fn new(check: Check, what: impl Into<String>) -> Fault {
        Fault {
            check,
            what: what.into(),
        }
    }
}

impl fmt::Display for Fault {
    fn fmt(&self, f: &mut fmt::Formatter) -> fmt::Result {
        write!(f, "{:?}: {}", self.check, self.what)
    }
}

#[derive(Clone)]
pub struct Trial<S, R> {
    pub subject: S,
    pub reference: R,
    pub ledger: Ledger,
    pub force: Force,
    stored: Stored,
    /// The range target, and whether it may have become another since it was looked at.
    range: [u8; SLOTS],
    range_is_due: bool,
    subject_before: S,
    before: Snapshot,
    after: Snapshot,
    reference_after: Snapshot,
    ours: Lent,
    theirs: Lent,
}

/// What an event that passed every check gave.
pub struct Step<'a> {
    pub reply: Reply,
    /// The slots told.
    pub slots: &'a [u16],
    pub records: Vec<Record>,
    pub earned: Earned,
    /// The range target after it, and whether it was looked at anew.
    pub range: &'a [u8; SLOTS],
    pub range_is_new: bool,
    pub before: &'a Snapshot,
    pub after: &'a Snapshot,
}

/// The refusal that was an event's due, if any, and the later ones that it earned besides.
pub struct Earned {
    pub due: Option<Reason>,
    pub besides: Vec<Reason>,
}

impl<S: Coordinator, R: Coordinator> Trial<S, R> {
    pub fn new(start: Start) -> Trial<S, R> {
        let subject = S::start(start);
        let reference = R::start(start);
        let after = Snapshot::of(&subject);
        Trial {
            subject_before: subject.clone(),
            subject,
            reference,
            ledger: Ledger::new(),
            force: Force::new(),
            stored: Stored::new(start),
            range: [NO_PLACE; SLOTS],
            range_is_due: true,
            before: after.clone(),
            reference_after: after.clone(),
            after,
            ours: Lent::default(),
            theirs: Lent::default(),
        }
    }

    /// The trial is of no use after a fault.
    pub fn step(&mut self, turn: &Turn) -> Result<Step<'_>, Fault> {
        caught(move || self.try_turn(turn))?
    }

    fn try_turn(&mut self, turn: &Turn) -> Result<Step<'_>, Fault> {
        self.subject_before.clone_from(&self.subject);
        let reply = self.serve(turn)?;
        mem::swap(&mut self.before, &mut self.after);
        self.after.take(&self.subject);
        self.reference_after.take(&self.reference);
        self.check_groups(reply)?;
        let earned = self.check_table(turn, reply)?;
        let records = self.feed(turn, reply)?;
        self.range_is_due |= records.iter().any(range::may_change);
        let range_is_new = mem::take(&mut self.range_is_due);
        if range_is_new {
            self.check_range()?;
        }
        Ok(Step {
            reply,
            slots: &self.ours.list[..reply.answer.told()],
            records,
            earned,
            range: &self.range,
            range_is_new,
            before: &self.before,
            after: &self.after,
        })
    }

    /// Answers, bytes written, buffers and lists are the same on both sides, and what lies beyond
    /// the records and the slots is as it was.
    fn serve(&mut self, turn: &Turn) -> Result<Reply, Fault> {
        let (ours, theirs) = (&mut self.ours, &mut self.theirs);
        ours.fill(turn);
        theirs.fill(turn);
        let (subject, reference) = (&mut self.subject, &mut self.reference);
        let reply = subject.serve(&turn.event, &mut ours.records, &mut ours.list);
        let other = reference.serve(&turn.event, &mut theirs.records, &mut theirs.list);
        if reply != other {
            let what = format!("subject: {reply}; reference: {other}");
            return Err(Fault::new(Check::Answer, what));
        }
        if let Some(what) = ours.difference(theirs) {
            return Err(Fault::new(Check::Lent, what));
        }
        match ours.overstepped(turn, reply) {
            Some(what) => Err(Fault::new(Check::Lent, what)),
            None => Ok(reply),
        }
    }

    fn check_groups(&self, reply: Reply) -> Result<(), Fault> {
        if let Some(what) = self.after.difference(&self.reference_after) {
            return Err(Fault::new(Check::Group, what));
        }
        let change = |what| Fault::new(Check::Change, what);
        if reply.answer.is_refusal() {
            if let Some(what) = self.before.difference(&self.after) {
                return Err(change(format!("a refusal changed the group: {what}")));
            }
            if self.subject != self.subject_before {
                return Err(change("a refusal changed what no function shows".into()));
            }
        }
        if let Answer::Swept(removed) = reply.answer {
            let (before, after) = (self.before.members.len(), self.after.members.len());
            if before.checked_sub(after) != Some(removed as usize) {
                let what = format!("{removed} swept, of {before} members {after} are left");
                return Err(change(what));
            }
        }
        self.after.held_once().map_err(change)
    }

    /// Why it was refused; a fault where 01's table says otherwise.
    fn check_table(&self, turn: &Turn, reply: Reply) -> Result<Earned, Fault> {
        let said = match reply.answer {
            Answer::Refused { number, slot } => Some((number, slot)),
            _ => None,
        };
        let mut earned = reasons::before_room(&turn.event, &self.before);
        let due = match earned.next() {
            None if said.is_some() => reasons::room(turn, &self.reference),
            due => due,
        };
        if said != due.map(|why| (why.reason.number(), why.slot)) {
            let what = format!("answered {said:?}, the table gives {due:?}");
            return Err(Fault::new(Check::Table, what));
        }
        Ok(Earned {
            due: due.map(|why| why.reason),
            besides: earned.map(|why| why.reason).collect(),
        })
    }

    fn feed(&mut self, turn: &Turn, reply: Reply) -> Result<Vec<Record>, Fault> {
        let (event, answer) = (&turn.event, reply.answer);
        let records = reader::read(&self.ours.records[..reply.written])
            .map_err(|at| Fault::new(Check::Records, format!("no record at byte {at}")))?;
        self.stored.apply(&records);
        if let Some(what) = self.stored.difference(&self.after) {
            return Err(Fault::new(Check::Records, what));
        }
        let told = &self.ours.list[..answer.told()];
        self.force.feed(event, answer, told, &records);
        self.ledger
            .feed(event, answer, told, &records)
            .and_then(|()| self.ledger.single_holder())
            .map_err(|what| Fault::new(Check::Ledger, what))?;
        Ok(records)
    }

    /// The two range targets are the same, and as the words say. Looking for one changes nothing.
    fn check_range(&mut self) -> Result<(), Fault> {
        self.subject_before.clone_from(&self.subject);
        self.range = self.subject.range_target();
        if self.subject != self.subject_before {
            let what = "a look for the range target changed the group";
            return Err(Fault::new(Check::Change, what));
        }
        let what = range::difference(&self.range, &self.reference.range_target())
            .or_else(|| range::misfit(&self.range, &self.after));
        match what {
            Some(what) => Err(Fault::new(Check::Range, what)),
            None => Ok(()),
        }
    }
}
