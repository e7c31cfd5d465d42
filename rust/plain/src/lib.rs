//! A consumer-group coordinator in plain Rust, written from documents 01 and 02 alone. It is the
//! other side of the comparison with the proved coordinator, and the baseline for its speed.
//!
//! Every event is decided first: its refusals are tried in the order of 01's table, its records
//! are collected, and only when they fit is anything changed. So a refusal leaves the group, the
//! lent buffer and the lent list as they were.
//!
//! Comments in quotation marks are 01's and 02's sentences, shortened.
#![forbid(unsafe_code)]

mod form;
mod group;
mod heartbeat;
mod install;
mod join;
pub mod journal;
mod leave;
mod limits;
mod member;
mod ordinary;
mod protocol;
mod range;
mod records;
mod refusal;
mod sweep;
mod topic;

pub use group::Group;
pub use limits::*;
pub use protocol::{Answer, Heartbeat, Id, Member, Reply, Topic};
pub use refusal::Refusal;
