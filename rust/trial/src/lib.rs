//! Two coordinators side by side on seeded random events. After every event, refused ones too,
//! their answers, the whole lent buffer, the whole lent list and the whole group, by its parts, are
//! compared. A refused event must leave the very group that there was, every field of it, shown or
//! not. Besides, each answer is held against 01's table, the group against the one that is read from
//! the stored records, and 01's ledger, fed nothing of the group, watches that no slot is with two
//! members. From random points of a run three rounds of heartbeats must bring every member to its
//! target. Wherever a member, a subscription, a topic or G changed, the two range targets are compared
//! and held against request 4's words; and from random points where T is below G they are installed on
//! copies.
//!
//! Journals are tried the same way (`journal`): two readers are given files as they were written, and
//! damaged ones, and must read the same group from each and stop at the same byte.
//!
//! And a broker over the binding's store is killed and started again (`crash`): no answer that went out
//! may be lost, and the ledger holds over it all.
//!
//! Where the coordinators are named: `sides`. How a coordinator is plugged in: `coordinator`.
#![forbid(unsafe_code)]

pub mod coordinator;
pub mod coverage;
pub mod crash;
pub mod data;
pub mod explore;
pub mod force;
pub mod generate;
pub mod journal;
mod labels;
pub mod ledger;
mod lent;
mod panics;
pub mod random;
pub mod range;
pub mod reader;
pub mod reasons;
mod repair;
pub mod report;
pub mod rounds;
pub mod shrink;
pub mod sides;
pub mod slots;
pub mod snapshot;
pub mod stored;
pub mod tally;
mod text;
pub mod trial;

pub use coordinator::Coordinator;
