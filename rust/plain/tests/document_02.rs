//! 02's cases on `plain`. The files under requests/ use only the binding's names, so another
//! coordinator runs the same cases with a file like this one.

use plain as coordinator;

mod requests;
