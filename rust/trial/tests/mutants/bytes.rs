//! Bytes, buffers, lists and the room in them.

use trial::data::{Beat, Reply};
use trial::trial::Check;
use trial::Coordinator;

use super::caught_on_each;
use super::mutant::*;

/// One wrong byte: the last of P's in a record 8.
pub struct WrongByte;

impl Mutation for WrongByte {
    fn heartbeat(&self, mutant: &mut Mutant, beat: &Beat, lent: &mut Lent) -> Reply {
        let reply = mutant.take(beat, lent);
        let has_p =
            find(&mutant.group, &beat.id).is_some_and(|(_, member)| !member.revoking.is_empty());
        if has_p && reply.written > 0 && lent.records[0] == 8 {
            lent.records[reply.written - 1] ^= 2;
        }
        reply
    }
}

#[test]
fn a_wrong_byte() {
    caught_on_each(&WrongByte, Check::Records);
}

/// Writes what fits of a record to a buffer that is too short.
struct WritesAtRefusal;

impl Mutation for WritesAtRefusal {
    fn install(&self, mutant: &mut Mutant, epoch: i32, entries: &[u8], buffer: &mut [u8]) -> Reply {
        let reply = Coordinator::install(&mut mutant.group, epoch, entries, buffer);
        if let (true, Some(first)) = (is_refused(reply, 1003), buffer.first_mut()) {
            *first ^= 7;
        }
        reply
    }
}

#[test]
fn a_buffer_written_at_a_refusal() {
    caught_on_each(&WritesAtRefusal, Check::Lent);
}

/// Clears the list beyond the slots told.
struct ClearsListRest;

impl Mutation for ClearsListRest {
    fn heartbeat(&self, mutant: &mut Mutant, beat: &Beat, lent: &mut Lent) -> Reply {
        let reply = mutant.take(beat, lent);
        let told = reply.answer.told();
        if let (1.., Some(next)) = (told, lent.list.get_mut(told)) {
            *next = !*next;
        }
        reply
    }
}

#[test]
fn a_list_written_beyond_its_slots() {
    caught_on_each(&ClearsListRest, Check::Lent);
}

/// Wants more than it needs: refuses a heartbeat where this holds of the reply and what was lent.
struct RefusesExact(fn(Reply, &[u8], &[u16]) -> bool);

impl Mutation for RefusesExact {
    fn heartbeat(&self, mutant: &mut Mutant, beat: &Beat, lent: &mut Lent) -> Reply {
        let mut copy = mutant.group.clone();
        let mut bytes = lent.records.to_vec();
        let reply = Coordinator::heartbeat(&mut copy, beat, &mut bytes, &mut lent.list.to_vec());
        if self.0(reply, lent.records, lent.list) {
            return refused(1003);
        }
        mutant.take(beat, lent)
    }
}

#[test]
fn a_buffer_of_exact_length_refused() {
    const WANTS_BYTE_MORE: RefusesExact =
        RefusesExact(|reply, records, _| reply.written > 0 && reply.written == records.len());
    caught_on_each(&WANTS_BYTE_MORE, Check::Table);
}

#[test]
fn a_list_of_exact_length_refused() {
    const WANTS_ENTRY_MORE: RefusesExact =
        RefusesExact(|reply, _, list| reply.answer.told() > 0 && reply.answer.told() == list.len());
    caught_on_each(&WANTS_ENTRY_MORE, Check::Table);
}
