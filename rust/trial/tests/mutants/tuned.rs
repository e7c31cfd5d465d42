//! The tuned coordinator altered where what makes it quick might go wrong.

use trial::data::{Beat, Reply};
use tuned::Group;

use super::caught;
use super::mutant::*;

/// Takes nothing for changed although P is not empty and the list has none of it.
struct SkipsFreeing;

impl Mutation<Group> for SkipsFreeing {
    fn heartbeat(&self, mutant: &mut Mutant<Group>, beat: &Beat, lent: &mut Lent) -> Reply {
        let mut beat = beat.clone();
        if sender(&mutant.group, &beat).is_some_and(|(_, member)| !member.revoking.is_empty()) {
            beat.owned = None;
        }
        mutant.take(&beat, lent)
    }
}

#[test]
fn nothing_changed_although_p_is_to_be_freed() {
    caught(&SkipsFreeing);
}

/// Tells the sender its own list where that has as many slots as A, although it may have some of P.
struct EchoesList;

impl Mutation<Group> for EchoesList {
    fn heartbeat(&self, mutant: &mut Mutant<Group>, beat: &Beat, lent: &mut Lent) -> Reply {
        let reply = mutant.take(beat, lent);
        match &beat.owned {
            Some(owned) if owned.len() == reply.answer.told() => tell(reply, owned, lent.list),
            _ => reply,
        }
    }
}

#[test]
fn the_senders_list_told_for_a() {
    caught(&EchoesList);
}

#[test]
fn nothing_is_found_where_nothing_is_altered() {
    mutate::<Group>(&Unchanged);
    super::finds_nothing::<Mutant<Group>>();
}
