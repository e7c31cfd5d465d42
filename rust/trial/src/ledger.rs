//! 01's ledger: what each member may be working on, reckoned from the events, their answers, the
//! slots told and the records stored, and from nothing of the group.

use std::collections::{BTreeMap, HashMap};

use crate::data::{Answer, Beat, Event, Id};
use crate::reader::Record;
use crate::slots::SlotSet;

/// "a set of slots for each ID, and for each place a name, which is an ID or none". An ID without
/// an entry has the empty set.
#[derive(Clone, Default)]
pub struct Ledger {
    sets: HashMap<Id, SlotSet>,
    names: BTreeMap<u8, Id>,
}

impl Ledger {
    pub fn new() -> Ledger {
        Ledger::default()
    }

    /// "The members are the IDs that name a place."
    pub fn members(&self) -> impl Iterator<Item = (u8, Id)> + '_ {
        self.names.iter().map(|(&place, &id)| (place, id))
    }

    pub fn is_member(&self, id: &Id) -> bool {
        self.names.values().any(|name| name == id)
    }

    /// Takes an event that was accepted; "all else, and every refusal, changes nothing". `told` are
    /// the slots of the answer.
    pub fn feed(
        &mut self,
        event: &Event,
        answer: Answer,
        told: &[u16],
        records: &[Record],
    ) -> Result<(), String> {
        match (event, answer) {
            (_, Answer::Refused { .. }) => Ok(()),
            (Event::Heartbeat(beat), _) if beat.epoch == 0 => self.joined(beat, told, records),
            (Event::Heartbeat(beat), _) if beat.epoch == -1 => {
                self.left(&beat.id);
                Ok(())
            }
            (Event::Heartbeat(beat), _) => self.heard(beat, told),
            (Event::Sweep { .. }, _) => {
                self.swept(records);
                Ok(())
            }
            (Event::Topic { .. } | Event::Install { .. }, _) => Ok(()),
        }
    }

    /// "Accepted join: the place in its record 5 is named by the ID. The ID's set becomes the slots
    /// of the answer."
    fn joined(&mut self, beat: &Beat, told: &[u16], records: &[Record]) -> Result<(), String> {
        let place = records.iter().find_map(|record| match record {
            Record::Member { place, .. } => Some(*place),
            _ => None,
        });
        let place = place.ok_or("an accepted join stored no record 5")?;
        self.names.insert(place, beat.id);
        self.sets.insert(beat.id, slots(told)?);
        Ok(())
    }

    /// "Accepted ordinary heartbeat: if a list is given, the ID's set becomes that list. Then the
    /// slots of the answer are added."
    fn heard(&mut self, beat: &Beat, told: &[u16]) -> Result<(), String> {
        let set = self.sets.entry(beat.id).or_default();
        if let Some(owned) = &beat.owned {
            *set = slots(owned)?;
        }
        set.add(&slots(told)?);
        Ok(())
    }

    /// "Accepted leave: the ID's set is emptied and its place loses the name."
    fn left(&mut self, id: &Id) {
        self.sets.remove(id);
        self.names.retain(|_, name| name != id);
    }

    /// "Accepted sweep: the same for the ID named at each place that its records 5 call gone."
    fn swept(&mut self, records: &[Record]) {
        for record in records {
            if let Record::MemberGone { place } = record {
                if let Some(id) = self.names.remove(place) {
                    self.sets.remove(&id);
                }
            }
        }
    }

    /// "After every list no slot is in the sets of two IDs."
    pub fn single_holder(&self) -> Result<(), String> {
        let mut seen = SlotSet::default();
        for set in self.sets.values() {
            if let Some(slot) = seen.common(set) {
                return Err(format!("slot {slot} is with two members"));
            }
            seen.add(set);
        }
        Ok(())
    }
}

fn slots(list: &[u16]) -> Result<SlotSet, String> {
    SlotSet::of(list).map_err(|number| format!("{number} was accepted or told as a slot"))
}

#[cfg(test)]
mod tests {
    use super::*;

    const AA: Id = [0xAA; 16];
    const BB: Id = [0xBB; 16];

    fn beat(id: Id, epoch: i32, owned: Option<&[u16]>) -> Event {
        Event::Heartbeat(Beat {
            id,
            epoch,
            tick: 0,
            timeout: -1,
            subscription: None,
            owned: owned.map(<[u16]>::to_vec),
        })
    }

    fn seated(place: u8, id: Id) -> Record {
        Record::Member {
            place,
            id,
            timeout: 300,
            subscription: 1,
        }
    }

    const ACCEPTED: Answer = Answer::Done;

    /// AA* at place 0 was told 0 1 2, BB* at place 1 nothing.
    fn two_members() -> Ledger {
        let mut ledger = Ledger::new();
        for (place, id) in [(0, AA), (1, BB)] {
            let join = beat(id, 0, Some(&[]));
            ledger
                .feed(&join, ACCEPTED, &[], &[seated(place, id)])
                .unwrap();
        }
        let told = [0, 1, 2];
        ledger
            .feed(&beat(AA, 1, None), ACCEPTED, &told, &[])
            .unwrap();
        ledger
    }

    /// Whether BB* can be told slot 2 now.
    fn is_free(ledger: &Ledger) -> bool {
        let mut ledger = ledger.clone();
        ledger
            .feed(&beat(BB, 2, Some(&[])), ACCEPTED, &[2], &[])
            .unwrap();
        ledger.single_holder().is_ok()
    }

    #[test]
    fn what_was_told_stays_until_a_list_is_given() {
        let mut ledger = two_members();
        ledger
            .feed(&beat(AA, 1, None), ACCEPTED, &[0, 1], &[])
            .unwrap();
        assert!(!is_free(&ledger));
        ledger
            .feed(&beat(AA, 1, Some(&[0, 1])), ACCEPTED, &[0, 1], &[])
            .unwrap();
        assert!(is_free(&ledger));
    }

    #[test]
    fn a_list_with_the_slot_keeps_it() {
        let mut ledger = two_members();
        ledger
            .feed(&beat(AA, 1, Some(&[2])), ACCEPTED, &[0, 1], &[])
            .unwrap();
        assert!(!is_free(&ledger));
    }

    #[test]
    fn a_refusal_changes_nothing() {
        let mut ledger = two_members();
        let refused = Answer::Refused {
            number: 110,
            slot: None,
        };
        let list = beat(AA, 1, Some(&[]));
        ledger.feed(&list, refused, &[], &[]).unwrap();
        assert!(!is_free(&ledger));
    }

    #[test]
    fn leaving_and_joining_anew_empty_the_set() {
        let mut left = two_members();
        left.feed(&beat(AA, -1, None), ACCEPTED, &[], &[]).unwrap();
        assert!(is_free(&left));
        assert!(!left.is_member(&AA));

        let mut joined = two_members();
        let join = beat(AA, 0, Some(&[]));
        joined.feed(&join, ACCEPTED, &[], &[seated(0, AA)]).unwrap();
        assert!(is_free(&joined));
        assert!(joined.is_member(&AA));
    }

    #[test]
    fn a_sweep_empties_the_set_named_at_each_place_gone() {
        let sweep = Event::Sweep { tick: 0 };
        let mut ledger = two_members();
        let other = [Record::MemberGone { place: 1 }];
        ledger.feed(&sweep, ACCEPTED, &[], &other).unwrap();
        assert!(!is_free(&ledger));
        let own = [Record::MemberGone { place: 0 }];
        ledger.feed(&sweep, ACCEPTED, &[], &own).unwrap();
        assert!(is_free(&ledger));
        assert_eq!(ledger.members().count(), 0);
    }

    #[test]
    fn a_join_without_its_record_5_is_a_fault() {
        let mut ledger = Ledger::new();
        let join = beat(AA, 0, Some(&[]));
        assert!(ledger.feed(&join, ACCEPTED, &[], &[]).is_err());
    }
}
