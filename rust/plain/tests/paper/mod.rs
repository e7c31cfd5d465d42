//! 01's worked cases and boundary pairs, for any crate that has the binding's names and is
//! called `coordinator` at the root of the test.

mod host;

mod clock;
mod epoch_end;
mod installs;
mod members;
mod order;
mod refusals;
mod room;
mod steps;
mod sweeps;
mod topics;
mod worked_example;
