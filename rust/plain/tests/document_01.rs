//! 01's worked cases and boundary pairs on `plain`. The files under paper/ use only the binding's
//! names, so another coordinator runs the same cases with a file like this one.

use plain as coordinator;

mod paper;
