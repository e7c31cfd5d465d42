//! 01's worked cases and boundary pairs, P1 to P12 among them, on the proved coordinator: the same
//! files that `plain` runs.

use pankvisolo as coordinator;

#[path = "../../plain/tests/paper/mod.rs"]
mod paper;
