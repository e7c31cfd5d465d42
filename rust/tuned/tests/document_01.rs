//! 01's worked cases and boundary pairs, P1 to P12 among them, on `tuned`: the same files that
//! `plain` runs.

use tuned as coordinator;

#[path = "../../plain/tests/paper/mod.rs"]
mod paper;
