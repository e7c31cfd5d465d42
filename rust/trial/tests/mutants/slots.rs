//! "How a slot gets lost or doubled."

use trial::data::{Answer, Beat, Event, Reply};
use trial::trial::Check;
use trial::Coordinator;

use super::mutant::*;
use super::{caught, caught_on_each};

/// Frees P because a heartbeat without a list came in.
struct FreesWithoutList;

impl Mutation for FreesWithoutList {
    fn heartbeat(&self, mutant: &mut Mutant, beat: &Beat, lent: &mut Lent) -> Reply {
        let mut beat = beat.clone();
        if let (None, Some((_, member))) = (&beat.owned, sender(&mutant.group, &beat)) {
            beat.owned = Some(member.assigned);
        }
        mutant.take(&beat, lent)
    }
}

#[test]
fn p_freed_without_a_list() {
    caught_on_each(&FreesWithoutList, Check::Ledger);
}

/// Frees P although the list still has a part of it.
struct FreesPartlyListed;

impl Mutation for FreesPartlyListed {
    fn heartbeat(&self, mutant: &mut Mutant, beat: &Beat, lent: &mut Lent) -> Reply {
        let mut beat = beat.clone();
        let sender = sender(&mutant.group, &beat);
        if let (Some(owned), Some((_, member))) = (&mut beat.owned, sender) {
            let all = member.revoking.iter().all(|slot| owned.contains(slot));
            if !all {
                owned.retain(|slot| !member.revoking.contains(slot));
            }
        }
        mutant.take(&beat, lent)
    }
}

#[test]
fn p_freed_while_a_part_of_it_is_listed() {
    caught_on_each(&FreesPartlyListed, Check::Ledger);
}

/// Tells a member all of M at once.
struct HandsOutWholeTarget;

impl Mutation for HandsOutWholeTarget {
    fn heartbeat(&self, mutant: &mut Mutant, beat: &Beat, lent: &mut Lent) -> Reply {
        let reply = mutant.take(beat, lent);
        match find(&mutant.group, &beat.id) {
            Some((place, _)) => tell(reply, &target(&mutant.group, place), lent.list),
            None => reply,
        }
    }
}

#[test]
fn the_whole_target_handed_out() {
    caught_on_each(&HandsOutWholeTarget, Check::Ledger);
}

/// Lets a new member at an old place find the old target: of a place whose member left, the last
/// target is kept until the next install, and told to whoever sits there.
struct KeepsOldTarget;

impl Mutation for KeepsOldTarget {
    fn heartbeat(&self, mutant: &mut Mutant, beat: &Beat, lent: &mut Lent) -> Reply {
        let place_before = find(&mutant.group, &beat.id).map(|(place, _)| place);
        let targets = place_before.map(|place| (place, target(&mutant.group, place)));
        let reply = mutant.take(beat, lent);
        match (reply.answer, targets) {
            (Answer::Left, Some((place, slots))) => {
                for slot in slots {
                    mutant.target[usize::from(slot)] = Some(place);
                }
                reply
            }
            (Answer::Assignment { .. }, Some((place, _))) if beat.epoch > 0 => {
                let slots = 0..1_024_u16;
                let is_told = |&slot: &u16| {
                    let (old, new) = (
                        mutant.target[usize::from(slot)],
                        mutant.group.target_of(slot),
                    );
                    old == Some(place) || new == Some(place) && old.is_none()
                };
                if mutant.target.contains(&Some(place)) {
                    let slots: Vec<u16> = slots.filter(is_told).collect();
                    tell(reply, &slots, lent.list)
                } else {
                    reply
                }
            }
            _ => reply,
        }
    }

    fn install(&self, mutant: &mut Mutant, epoch: i32, entries: &[u8], buffer: &mut [u8]) -> Reply {
        let reply = Coordinator::install(&mut mutant.group, epoch, entries, buffer);
        if !reply.answer.is_refusal() {
            mutant.target.fill(None);
        }
        reply
    }
}

#[test]
fn an_old_target_found_by_a_new_member() {
    let report = caught(&KeepsOldTarget);
    let turns = &report.shortest.turns;
    let leaves = |event: &Event| matches!(event, Event::Heartbeat(beat) if beat.epoch == -1);
    assert!(turns.iter().any(|turn| leaves(&turn.event)));
}

/// Never hands out a slot: every target is taken for an empty one. The single holder holds.
struct HandsOutNothing;

impl Mutation for HandsOutNothing {
    fn install(&self, mutant: &mut Mutant, epoch: i32, entries: &[u8], buffer: &mut [u8]) -> Reply {
        let nothing = vec![255; 1_024];
        let reply = Coordinator::install(
            &mut mutant.group.clone(),
            epoch,
            entries,
            &mut vec![0; 4_096],
        );
        if reply.answer.is_refusal() {
            return reply;
        }
        let installed = mutant.group.install_partial(epoch, &nothing, buffer);
        installed.into()
    }
}

#[test]
fn no_slot_ever_handed_out() {
    caught_on_each(&HandsOutNothing, Check::Rounds);
}
