//! The sides of a trial. The binding has its feature `testing`, with which two groups are equal only
//! where every field of the library's struct is. To try another coordinator with the binding's names:
//! make its crate a dependency, add its lines below, and give its group as the subject.

use crate::coordinator::{coordinate, translate};
use crate::data::{Answer, Beat, Id, Member, Reply, Topic, SLOTS};
use crate::journal::reads::read_journals;

coordinate!(pankvisolo);
translate!(pankvisolo);

// The replies of `tuned` are `plain`'s.
coordinate!(plain);
coordinate!(tuned);
translate!(plain);

read_journals!(plain);
read_journals!(pankvisolo);

/// The coordinators under trial: the proved one, and the one that is only a measure of its speed.
pub type Proved = pankvisolo::Group;
pub type Tuned = tuned::Group;

/// The proved reader of journals again, given the file in parts.
pub use crate::journal::in_parts::InParts;

/// The one they are compared with; events are made with an eye on this one.
pub type Reference = plain::Group;
