//! A coordinator that panics instead of answering: a fault like any other, so that the report names
//! the seed, the run and the event, and the run is shortened.

use std::cell::{Cell, RefCell};
use std::panic::{self, AssertUnwindSafe};
use std::sync::Once;

use crate::trial::{Check, Fault};

thread_local! {
    /// Whether this thread is in `caught`.
    static IS_CAUGHT: Cell<bool> = const { Cell::new(false) };
    /// What the last panic in it said.
    static SAID: RefCell<String> = const { RefCell::new(String::new()) };
}

/// What the call returns; where it panics, a fault in the words of the panic, which are not printed.
/// What the call was changing is of no use then.
pub fn caught<T>(call: impl FnOnce() -> T) -> Result<T, Fault> {
    listen();
    let was_caught = IS_CAUGHT.replace(true);
    let outcome = panic::catch_unwind(AssertUnwindSafe(call));
    IS_CAUGHT.set(was_caught);
    outcome.map_err(|_| Fault::new(Check::Panic, SAID.take()))
}

/// Panics elsewhere are reported as before.
fn listen() {
    static LISTENS: Once = Once::new();
    LISTENS.call_once(|| {
        let report = panic::take_hook();
        panic::set_hook(Box::new(move |panic| {
            if IS_CAUGHT.get() {
                SAID.set(panic.to_string().replace('\n', " "));
            } else {
                report(panic);
            }
        }));
    });
}
