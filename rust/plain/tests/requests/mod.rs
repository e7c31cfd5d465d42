//! 02's cases, for any crate that has the binding's names and is called `coordinator` at the root of
//! the test.

#[allow(dead_code)]
#[path = "../paper/host.rs"]
mod host;
mod story;

mod batches;
mod files;
mod left_over;
mod range;
