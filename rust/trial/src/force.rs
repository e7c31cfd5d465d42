//! What the three rounds start from: the target in force and each member's last answer, kept from
//! events, answers and stored records, as the ledger is.

use std::collections::HashMap;

use crate::data::{Answer, Beat, Event, Id};
use crate::reader::Record;

#[derive(Clone, Default)]
pub struct Force {
    install: Option<Install>,
    last: HashMap<Id, LastAnswer>,
}

/// "The target in force is the list of the last accepted install."
#[derive(Clone, Debug)]
pub struct Install {
    pub epoch: i32,
    pub entries: Vec<u8>,
    /// "for the current epoch as long as no record 3 was stored since".
    is_current: bool,
}

/// What a member's last accepted heartbeat was answered, and the last subscription it had accepted.
#[derive(Clone, Default, Debug)]
pub struct LastAnswer {
    pub epoch: i32,
    pub slots: Vec<u16>,
    pub subscription: u16,
}

impl Force {
    pub fn new() -> Force {
        Force::default()
    }

    /// The last install, where it is for the current epoch.
    pub fn current(&self) -> Option<&Install> {
        self.install.as_ref().filter(|install| install.is_current)
    }

    /// Every member has one, since it joined.
    pub fn last_answer(&self, id: &Id) -> LastAnswer {
        self.last.get(id).cloned().unwrap_or_default()
    }

    pub fn feed(&mut self, event: &Event, answer: Answer, told: &[u16], records: &[Record]) {
        if answer.is_refusal() {
            return;
        }
        let raised = |record: &Record| matches!(record, Record::GroupEpoch(_));
        if let Some(install) = &mut self.install {
            install.is_current &= !records.iter().any(raised);
        }
        match (event, answer) {
            (Event::Install { epoch, entries }, _) => {
                self.install = Some(Install {
                    epoch: *epoch,
                    entries: entries.clone(),
                    is_current: true,
                });
            }
            (Event::Heartbeat(beat), Answer::Assignment { epoch, .. }) => {
                self.answered(beat, epoch, told);
            }
            (Event::Heartbeat(beat), _) => {
                self.last.remove(&beat.id);
            }
            _ => {}
        }
    }

    fn answered(&mut self, beat: &Beat, epoch: i32, told: &[u16]) {
        let last = self.last.entry(beat.id).or_default();
        last.epoch = epoch;
        last.slots.clear();
        last.slots.extend_from_slice(told);
        if let Some(subscription) = beat.subscription {
            last.subscription = subscription;
        }
    }
}

impl Install {
    /// "a member's target is the slots with its place in that install's list".
    pub fn target_of(&self, place: u8) -> Vec<u16> {
        let entries = self.entries.iter().enumerate();
        let own = entries.filter(|(_, &entry)| entry == place);
        own.map(|(slot, _)| slot as u16).collect()
    }
}
