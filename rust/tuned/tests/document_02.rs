//! What `tuned` has of 02, which is all but journals: the same files that `plain` runs.

use tuned as coordinator;

#[allow(dead_code)]
#[path = "../../plain/tests/paper/host.rs"]
mod host;
#[path = "../../plain/tests/requests/left_over.rs"]
mod left_over;
#[path = "../../plain/tests/requests/range.rs"]
mod range;
