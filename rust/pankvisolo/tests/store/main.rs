//! A journal in a file: what stands in it after each event, what is found when it is opened again,
//! and what is said, and left alone, where something is wrong.

use pankvisolo as coordinator;

#[allow(dead_code)]
#[path = "../../../plain/tests/paper/host.rs"]
mod host;

mod child;
mod folder;
mod left_over;
mod morning;
mod opening;
mod range_target;
mod refusals;
mod trouble;
