//! A consumer-group coordinator in Rust, written from documents 01 and 02 for speed: the second
//! baseline for the proved coordinator, beside `plain`, which is written to be read. It reads no
//! journals.
//!
//! A member is found in a hash map by its ID, with the standard hasher. Its A, P and target are sets
//! of sixteen words, and so are the slots that anybody holds. Nothing is allocated but where the map
//! grows, which it seldom does, since it has room for all members from the start. What changes nothing
//! returns before anything is built.
//!
//! Every event is decided first, as in `plain`, and what goes in and comes out are `plain`'s types.
//! Comments in quotation marks are 01's and 02's sentences, shortened.
#![forbid(unsafe_code)]

mod group;
mod heartbeat;
mod install;
mod join;
mod leave;
mod ordinary;
mod range;
mod records;
mod slots;
mod sweep;
mod topic;

pub use group::Group;
pub use plain::{Answer, Heartbeat, Id, Member, Refusal, Reply, Topic};
