//! The three rounds of demand 3: wherever the target in force is for the current epoch, three
//! rounds of regular heartbeats bring every member to its target.

use crate::coordinator::Coordinator;
use crate::data::{Beat, Event, Id, Turn};
use crate::force::Install;
use crate::random::Random;
use crate::trial::{Check, Fault, Step, Trial};

const LARGEST_STEP: usize = (1 << 31) - 1;

/// Drives three rounds, made from the seed, from a point where the target is in force; `each` is
/// shown every event of them and what came of it. Nothing happens where no target is in force.
pub fn three_rounds<S: Coordinator, R: Coordinator>(
    trial: &mut Trial<S, R>,
    seed: u64,
    mut each: impl FnMut(&Turn, &Result<Step, Fault>),
) -> Result<(), Fault> {
    let Some(install) = trial.force.current().cloned() else {
        return Ok(());
    };
    let mut random = Random::new(seed);
    let members: Vec<(u8, Id)> = trial.ledger.members().collect();
    for _ in 0..3 {
        for id in stretch(&members, &mut random) {
            let mut turn = Turn::roomy(Event::Heartbeat(regular(trial, id, &mut random)));
            turn.fill = random.next() as u8;
            let result = trial.step(&turn);
            each(&turn, &result);
            let reply = result?.reply;
            if reply.answer.is_refusal() {
                return Err(Fault::new(Check::Rounds, format!("{turn}: {reply}")));
            }
        }
    }
    check(trial, &install, &members)
}

/// "in each of which every member sends at least once": all in random order, some more than once.
fn stretch(members: &[(u8, Id)], random: &mut Random) -> Vec<Id> {
    let mut order: Vec<Id> = members.iter().map(|(_, id)| *id).collect();
    for _ in 0..random.below(members.len() / 2 + 1) {
        let (_, again) = random.pick(members);
        order.push(again);
    }
    random.shuffle(&mut order);
    order
}

/// "it carries the epoch of its sender's last answer and gives a list, with slots of that answer
/// only"; "a subscription, if given, is the last that its sender had accepted".
fn regular<S: Coordinator, R: Coordinator>(
    trial: &Trial<S, R>,
    id: Id,
    random: &mut Random,
) -> Beat {
    let last = trial.force.last_answer(&id);
    let step = if random.chance(1, 50) {
        random.between(0, LARGEST_STEP)
    } else {
        random.below(2_000)
    };
    let timeout = if random.chance(1, 10) {
        random.pick(&[1, 300, 60_000, 1_800_000])
    } else {
        -1
    };
    Beat {
        id,
        epoch: last.epoch,
        tick: trial.reference.last_tick().wrapping_add(step as u32),
        timeout,
        subscription: random.chance(1, 4).then_some(last.subscription),
        owned: Some(sublist(&last.slots, random)),
    }
}

fn sublist(slots: &[u16], random: &mut Random) -> Vec<u16> {
    let share = random.pick(&[0, 1, 2, 3, 4, 4, 4]);
    let mut list = slots.to_vec();
    list.retain(|_| random.chance(share, 4));
    list
}

/// "Then each member has E equal to the install's epoch, A equal to its target and P empty, and
/// its last answer carries that E and A."
fn check<S: Coordinator, R: Coordinator>(
    trial: &Trial<S, R>,
    install: &Install,
    members: &[(u8, Id)],
) -> Result<(), Fault> {
    for (place, id) in members {
        let target = install.target_of(*place);
        let fault = |what: String| {
            let what = format!("after three rounds, place {place}: {what}");
            Err(Fault::new(Check::Rounds, what))
        };
        let Some(member) = trial.subject.member_at(*place) else {
            return fault("nobody there".into());
        };
        let is_settled = member.id == *id
            && member.epoch == install.epoch
            && member.assigned == target
            && member.revoking.is_empty();
        if !is_settled {
            return fault(format!("{member}, its target {target:?}"));
        }
        let last = trial.force.last_answer(id);
        if last.epoch != install.epoch || last.slots != target {
            let (epoch, slots) = (last.epoch, last.slots);
            let told = format!("its last answer {epoch}, {slots:?}");
            return fault(format!("{told}, its target {target:?}"));
        }
    }
    Ok(())
}
