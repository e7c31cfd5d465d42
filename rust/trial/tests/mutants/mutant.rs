//! A coordinator with one fault, the plain one where no other is named: a wrapper that alters what
//! goes in or comes out.

use std::cell::Cell;
use std::thread::LocalKey;

use plain::Group as Plain;
use trial::data::{Answer, Beat, Id, Member, Reply, Topic, PLACES, SLOTS};
use trial::Coordinator;
use tuned::Group as Tuned;

/// What is lent to a heartbeat.
pub struct Lent<'a> {
    pub records: &'a mut [u8],
    pub list: &'a mut [u16],
}

/// What is altered; everything else passes unchanged.
pub trait Mutation<G: Mutable = Plain>: Sync {
    fn heartbeat(&self, mutant: &mut Mutant<G>, beat: &Beat, lent: &mut Lent) -> Reply {
        mutant.take(beat, lent)
    }

    fn sweep(&self, mutant: &mut Mutant<G>, tick: u32, records: &mut [u8]) -> Reply {
        mutant.group.sweep(tick, records)
    }

    fn install(&self, of: &mut Mutant<G>, epoch: i32, entries: &[u8], buffer: &mut [u8]) -> Reply {
        of.group.install(epoch, entries, buffer)
    }

    fn epoch(&self, mutant: &Mutant<G>) -> i32 {
        mutant.group.epoch()
    }

    fn last_tick(&self, mutant: &Mutant<G>) -> u32 {
        mutant.group.last_tick()
    }

    fn range_target(&self, mutant: &Mutant<G>) -> [u8; SLOTS] {
        mutant.group.range_target()
    }
}

/// No mutation.
pub struct Unchanged;

impl<G: Mutable> Mutation<G> for Unchanged {}

/// A coordinator that can be given a mutation: where the one stands that the groups get which a thread
/// makes. A trial makes its groups itself, and one type for all mutations keeps the tests quick to
/// compile.
pub trait Mutable: Coordinator + 'static {
    fn mutation() -> &'static LocalKey<Cell<&'static dyn Mutation<Self>>>;
}

macro_rules! mutable {
    ($group:ty) => {
        impl Mutable for $group {
            fn mutation() -> &'static LocalKey<Cell<&'static dyn Mutation<Self>>> {
                thread_local! {
                    static MUTATION: Cell<&'static dyn Mutation<$group>> =
                        const { Cell::new(&Unchanged) };
                }
                &MUTATION
            }
        }
    };
}

mutable!(Plain);
mutable!(Tuned);

/// The groups that this thread makes from here on have the mutation.
pub fn mutate<G: Mutable>(mutation: &'static dyn Mutation<G>) {
    G::mutation().set(mutation);
}

#[derive(Clone)]
pub struct Mutant<G: Mutable = Plain> {
    mutation: &'static dyn Mutation<G>,
    pub group: G,
    /// What a mutation may keep: a number, a tick, a target.
    pub number: i32,
    pub tick: Option<u32>,
    pub target: Vec<Option<u8>>,
    /// And what it may change where it is only looked at.
    pub looks: Cell<u32>,
}

impl<G: Mutable> Mutant<G> {
    fn new(group: G) -> Mutant<G> {
        Mutant {
            mutation: G::mutation().get(),
            group,
            number: 0,
            tick: None,
            target: vec![None; 1_024],
            looks: Cell::new(0),
        }
    }

    /// The heartbeat as the coordinator takes it.
    pub fn take(&mut self, beat: &Beat, lent: &mut Lent) -> Reply {
        self.group.heartbeat(beat, lent.records, lent.list)
    }
}

impl<G: Mutable> PartialEq for Mutant<G> {
    fn eq(&self, other: &Mutant<G>) -> bool {
        let kept = |of: &Mutant<G>| (of.number, of.tick, of.looks.get());
        self.group == other.group && kept(self) == kept(other) && self.target == other.target
    }
}

impl<G: Mutable> Coordinator for Mutant<G> {
    fn fresh(tick: u32) -> Self {
        Mutant::new(G::fresh(tick))
    }

    fn at_epochs(tick: u32, epoch: i32, target_epoch: i32) -> Self {
        Mutant::new(G::at_epochs(tick, epoch, target_epoch))
    }

    fn heartbeat(&mut self, beat: &Beat, records: &mut [u8], list: &mut [u16]) -> Reply {
        self.mutation
            .heartbeat(self, beat, &mut Lent { records, list })
    }

    fn sweep(&mut self, tick: u32, records: &mut [u8]) -> Reply {
        self.mutation.sweep(self, tick, records)
    }

    fn topic(&mut self, number: u32, id: Id, count: u32, records: &mut [u8]) -> Reply {
        self.group.topic(number, id, count, records)
    }

    fn install(&mut self, epoch: i32, entries: &[u8], records: &mut [u8]) -> Reply {
        self.mutation.install(self, epoch, entries, records)
    }

    fn epoch(&self) -> i32 {
        self.mutation.epoch(self)
    }

    fn target_epoch(&self) -> i32 {
        self.group.target_epoch()
    }

    fn last_tick(&self) -> u32 {
        self.mutation.last_tick(self)
    }

    fn topic_at(&self, number: u8) -> Option<Topic> {
        self.group.topic_at(number)
    }

    fn member_at(&self, place: u8) -> Option<Member> {
        self.group.member_at(place)
    }

    fn target_of(&self, slot: u16) -> Option<u8> {
        self.group.target_of(slot)
    }

    fn range_target(&self) -> [u8; SLOTS] {
        self.mutation.range_target(self)
    }
}

pub fn refused(number: u16) -> Reply {
    Reply {
        answer: Answer::Refused { number, slot: None },
        written: 0,
    }
}

pub fn is_refused(reply: Reply, due: u16) -> bool {
    matches!(reply.answer, Answer::Refused { number, .. } if number == due)
}

/// The place and the state of a member.
pub fn find(group: &impl Coordinator, id: &Id) -> Option<(u8, Member)> {
    (0..PLACES).find_map(|place| {
        let member = group.member_at(place)?;
        (member.id == *id).then_some((place, member))
    })
}

/// The sender of an ordinary heartbeat at its right epoch.
pub fn sender(group: &impl Coordinator, beat: &Beat) -> Option<(u8, Member)> {
    let found = (beat.epoch > 0).then(|| find(group, &beat.id))?;
    found.filter(|(_, member)| member.epoch == beat.epoch)
}

/// The slots whose target is the place.
pub fn target(group: &impl Coordinator, place: u8) -> Vec<u16> {
    let slots = 0..1_024;
    slots
        .filter(|&slot| group.target_of(slot) == Some(place))
        .collect()
}

/// Tells other slots than were assigned, if they fit.
pub fn tell(reply: Reply, slots: &[u16], list: &mut [u16]) -> Reply {
    match reply.answer {
        Answer::Assignment {
            epoch, interval, ..
        } if slots.len() <= list.len() => {
            list[..slots.len()].copy_from_slice(slots);
            Reply {
                answer: Answer::Assignment {
                    epoch,
                    interval,
                    count: slots.len(),
                },
                ..reply
            }
        }
        _ => reply,
    }
}
