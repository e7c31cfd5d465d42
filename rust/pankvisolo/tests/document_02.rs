//! 02's cases on the proved coordinator: the same files that `plain` runs.

use pankvisolo as coordinator;

#[path = "../../plain/tests/requests/mod.rs"]
mod requests;
