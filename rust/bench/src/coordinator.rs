//! What the coordinators have in common: the binding's names, over types of their own.

use crate::event::{Beat, Event};

/// The buffers that each call is lent, and where a range target goes. They are never cleared.
pub struct Lent {
    pub records: [u8; 4_096],
    pub assignment: [u16; 1_024],
    pub entries: [u8; 1_024],
}

impl Lent {
    pub fn new() -> Lent {
        Lent {
            records: [0; 4_096],
            assignment: [0; 1_024],
            entries: [0; 1_024],
        }
    }
}

/// A reply in words that all sides share.
#[derive(Clone, Copy, PartialEq, Eq, Debug)]
pub enum Outcome {
    Assigned {
        epoch: i32,
        count: usize,
    },
    Left,
    Swept(u32),
    Done,
    /// With 01's number.
    Refused(u16),
}

/// What a member's next heartbeat says of it.
pub struct Standing {
    pub epoch: i32,
    pub owned: Vec<u16>,
}

pub trait Coordinator: Clone {
    type Reply: Copy;

    fn made(tick: u32) -> Self;
    fn beat(&mut self, beat: &Beat, lent: &mut Lent) -> Self::Reply;
    fn sweep_at(&mut self, tick: u32, lent: &mut Lent) -> Self::Reply;
    fn make_topic(&mut self, number: u8, count: u32, lent: &mut Lent) -> Self::Reply;
    fn install_target(&mut self, epoch: i32, entries: &[u8], lent: &mut Lent) -> Self::Reply;
    /// Done, with nothing written.
    fn make_range_target(&self, lent: &mut Lent) -> Self::Reply;

    fn group_epoch(&self) -> i32;
    fn standing(&self, place: u8) -> Option<Standing>;
    fn outcome(reply: Self::Reply) -> Outcome;
    fn written(reply: Self::Reply) -> usize;

    /// One call through the public API.
    #[inline]
    fn play(&mut self, event: &Event, lent: &mut Lent) -> Self::Reply {
        match event {
            Event::Beat(beat) => self.beat(beat, lent),
            Event::Sweep { tick } => self.sweep_at(*tick, lent),
            Event::Topic { number, count } => self.make_topic(*number, *count, lent),
            Event::Install { epoch, entries } => self.install_target(*epoch, entries, lent),
            Event::RangeTarget => self.make_range_target(lent),
        }
    }
}

macro_rules! coordinate {
    ($side:ident) => {
        impl Coordinator for $side::Group {
            type Reply = $side::Reply;

            fn made(tick: u32) -> Self {
                $side::Group::new(tick)
            }

            #[inline]
            fn beat(&mut self, beat: &Beat, lent: &mut Lent) -> Self::Reply {
                let request = $side::Heartbeat {
                    id: beat.id,
                    epoch: beat.epoch,
                    tick: beat.tick,
                    timeout: beat.timeout,
                    subscription: beat.subscription,
                    owned: Some(&beat.owned),
                };
                self.heartbeat(&request, &mut lent.records, &mut lent.assignment)
            }

            #[inline]
            fn sweep_at(&mut self, tick: u32, lent: &mut Lent) -> Self::Reply {
                self.sweep(tick, &mut lent.records)
            }

            fn make_topic(&mut self, number: u8, count: u32, lent: &mut Lent) -> Self::Reply {
                self.topic(number.into(), [number + 1; 16], count, &mut lent.records)
            }

            #[inline]
            fn install_target(
                &mut self,
                epoch: i32,
                entries: &[u8],
                lent: &mut Lent,
            ) -> Self::Reply {
                self.install(epoch, entries, &mut lent.records)
            }

            #[inline]
            fn make_range_target(&self, lent: &mut Lent) -> Self::Reply {
                lent.entries = self.range_target();
                $side::Reply {
                    answer: $side::Answer::Done,
                    written: 0,
                }
            }

            fn group_epoch(&self) -> i32 {
                self.epoch()
            }

            fn standing(&self, place: u8) -> Option<Standing> {
                let member = self.member_at(place)?;
                Some(Standing {
                    epoch: member.epoch,
                    owned: member.assigned,
                })
            }

            fn outcome(reply: Self::Reply) -> Outcome {
                match reply.answer {
                    $side::Answer::Assignment { epoch, count, .. } => {
                        Outcome::Assigned { epoch, count }
                    }
                    $side::Answer::Left => Outcome::Left,
                    $side::Answer::Swept(removed) => Outcome::Swept(removed),
                    $side::Answer::Done => Outcome::Done,
                    $side::Answer::Refused(refusal) => Outcome::Refused(refusal.number()),
                }
            }

            fn written(reply: Self::Reply) -> usize {
                reply.written
            }
        }
    };
}

coordinate!(pankvisolo);
coordinate!(plain);
coordinate!(tuned);
