//! Journals (request 1 of 02): made from random events through the plain coordinator, with the group
//! after each batch; damaged in every way; and read by two readers, whose readings must be the same.
//! Some are as brokers wrote them before request 3: `older`.
//!
//! Plain's judge of batches is itself held against another, which tries every event: `agree`.
//!
//! How a reader is plugged in: `reads`, and its line in `sides`.

pub mod agree;
pub mod compare;
pub mod damage;
pub mod forge;
pub mod in_parts;
pub mod judge;
pub mod older;
pub mod reads;
pub mod records;
pub mod refused;
pub mod spoil;
pub mod tally;
pub mod written;

pub use reads::{Reading, Reads, Verdict};
pub use written::Journal;
