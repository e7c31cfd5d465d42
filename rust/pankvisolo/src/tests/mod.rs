//! Tests of the declarations: this package's against the archive and against the C header, and the
//! header's against the archive.

mod by_events;
mod by_numbers;
mod c_compiler;
mod c_host;
mod calls;
mod header;
mod left_over;
mod range_target;
mod refusals;
