//! What a coordinator must offer to be tried, and `coordinate!` and `translate!`, which give it to a
//! crate that has the names of the binding.

use crate::data::{Beat, Event, Id, Member, Reply, Start, Topic, SLOTS};

/// Two are equal where nothing differs, not even what no function of them shows.
pub trait Coordinator: Clone + PartialEq {
    fn fresh(tick: u32) -> Self;
    fn at_epochs(tick: u32, epoch: i32, target_epoch: i32) -> Self;

    fn heartbeat(&mut self, beat: &Beat, records: &mut [u8], list: &mut [u16]) -> Reply;
    fn sweep(&mut self, tick: u32, records: &mut [u8]) -> Reply;
    fn topic(&mut self, number: u32, id: Id, count: u32, records: &mut [u8]) -> Reply;
    fn install(&mut self, epoch: i32, entries: &[u8], records: &mut [u8]) -> Reply;

    fn epoch(&self) -> i32;
    fn target_epoch(&self) -> i32;
    fn last_tick(&self) -> u32;
    fn topic_at(&self, number: u8) -> Option<Topic>;
    fn member_at(&self, place: u8) -> Option<Member>;
    fn target_of(&self, slot: u16) -> Option<u8>;
    fn range_target(&self) -> [u8; SLOTS];

    fn start(start: Start) -> Self {
        match start {
            Start::Fresh { tick } => Self::fresh(tick),
            Start::AtEpochs {
                tick,
                epoch,
                target_epoch,
            } => Self::at_epochs(tick, epoch, target_epoch),
        }
    }

    fn serve(&mut self, event: &Event, records: &mut [u8], list: &mut [u16]) -> Reply {
        match event {
            Event::Heartbeat(beat) => self.heartbeat(beat, records, list),
            Event::Sweep { tick } => self.sweep(*tick, records),
            Event::Topic { number, id, count } => self.topic(*number, *id, *count, records),
            Event::Install { epoch, entries } => self.install(*epoch, entries, records),
        }
    }
}

/// Implements `Coordinator` for `$api::Group`, by the names of the binding. Its replies need
/// `translate!`, once for each type of them.
macro_rules! coordinate {
    ($api:ident) => {
        impl $crate::Coordinator for $api::Group {
            fn fresh(tick: u32) -> Self {
                $api::Group::new(tick)
            }

            fn at_epochs(tick: u32, epoch: i32, target_epoch: i32) -> Self {
                $api::Group::at_epochs(tick, epoch, target_epoch)
            }

            fn heartbeat(&mut self, beat: &Beat, records: &mut [u8], list: &mut [u16]) -> Reply {
                let request = $api::Heartbeat {
                    id: beat.id,
                    epoch: beat.epoch,
                    tick: beat.tick,
                    timeout: beat.timeout,
                    subscription: beat.subscription,
                    owned: beat.owned.as_deref(),
                };
                $api::Group::heartbeat(self, &request, records, list).into()
            }

            fn sweep(&mut self, tick: u32, records: &mut [u8]) -> Reply {
                $api::Group::sweep(self, tick, records).into()
            }

            fn topic(&mut self, number: u32, id: Id, count: u32, records: &mut [u8]) -> Reply {
                $api::Group::topic(self, number, id, count, records).into()
            }

            fn install(&mut self, epoch: i32, entries: &[u8], records: &mut [u8]) -> Reply {
                $api::Group::install(self, epoch, entries, records).into()
            }

            fn epoch(&self) -> i32 {
                $api::Group::epoch(self)
            }

            fn target_epoch(&self) -> i32 {
                $api::Group::target_epoch(self)
            }

            fn last_tick(&self) -> u32 {
                $api::Group::last_tick(self)
            }

            fn topic_at(&self, number: u8) -> Option<Topic> {
                let topic = $api::Group::topic_at(self, number)?;
                Some(Topic {
                    id: topic.id,
                    count: topic.count,
                })
            }

            fn member_at(&self, place: u8) -> Option<Member> {
                let member = $api::Group::member_at(self, place)?;
                Some(Member {
                    id: member.id,
                    epoch: member.epoch,
                    subscription: member.subscription,
                    timeout: member.timeout,
                    assigned: member.assigned,
                    revoking: member.revoking,
                    heard: member.heard,
                    revoked_at: member.revoked_at,
                })
            }

            fn target_of(&self, slot: u16) -> Option<u8> {
                $api::Group::target_of(self, slot)
            }

            fn range_target(&self) -> [u8; SLOTS] {
                $api::Group::range_target(self)
            }
        }
    };
}

/// Tells the replies of `$api` in the trial's words.
macro_rules! translate {
    ($api:ident) => {
        impl From<$api::Reply> for Reply {
            fn from(reply: $api::Reply) -> Reply {
                let answer = match reply.answer {
                    $api::Answer::Assignment {
                        epoch,
                        interval,
                        count,
                    } => Answer::Assignment {
                        epoch,
                        interval,
                        count,
                    },
                    $api::Answer::Left => Answer::Left,
                    $api::Answer::Swept(removed) => Answer::Swept(removed),
                    $api::Answer::Done => Answer::Done,
                    $api::Answer::Refused(refusal) => Answer::Refused {
                        number: refusal.number(),
                        slot: match refusal {
                            $api::Refusal::BadTarget { slot } => Some(slot),
                            _ => None,
                        },
                    },
                };
                Reply {
                    answer,
                    written: reply.written,
                }
            }
        }
    };
}

pub(crate) use {coordinate, translate};
