//! The proved consumer-group coordinator, for brokers written in Rust.
//!
//! A [`Group`] takes four kinds of event. Each either is refused, and then nothing has changed, or
//! is accepted: the group is the next one, the bytes to store stand at the start of the lent
//! `records`, and for a join or an ordinary heartbeat the member's slots stand at the start of the
//! lent `assignment`. What lies behind the accepted part of either is left as it was. Every
//! function takes every value; 4,096 bytes and 1,024 slots are room enough for any event. A host that
//! has no assignor installs what [`Group::range_target`] gives.
//!
//! ```
//! use pankvisolo::{Answer, Group, Heartbeat};
//!
//! let (mut records, mut assignment) = ([0; 4096], [0; 1024]);
//! let mut group = Group::new(1_000);
//! let reply = group.topic(0, [0x11; 16], 3, &mut records);
//! assert_eq!((reply.answer, reply.written), (Answer::Done, 19));
//!
//! let join = Heartbeat {
//!     id: [0xAA; 16],
//!     epoch: 0,
//!     tick: 1_000,
//!     timeout: 300,
//!     subscription: Some(1),
//!     owned: Some(&[]),
//! };
//! let reply = group.heartbeat(&join, &mut records, &mut assignment);
//! let Answer::Assignment { epoch, count, .. } = reply.answer else {
//!     panic!("refused");
//! };
//! assert_eq!((epoch, &assignment[..count]), (1, &[][..]));
//! // `records[..reply.written]` goes to the log before the answer goes out.
//! ```
//!
//! The functions behind this are Rattle's, proved equal to the rules; nothing checks the
//! declarations in the module `ffi` against them but this package's tests.
#![deny(unsafe_code)]

mod answers;
#[allow(unsafe_code)]
mod ffi;
mod group;
mod ids;
pub mod journal;
mod protocol;
mod refusal;

#[cfg(test)]
mod tests;

/// So that the README's excerpt in Rust is compiled and run with the tests.
#[cfg(doctest)]
#[doc = include_str!("../../../README.md")]
struct Readme;

pub use group::Group;
pub use protocol::{Answer, Heartbeat, Id, Member, Reply, Topic};
pub use refusal::Refusal;
