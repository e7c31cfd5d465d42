//! IDs: random ones, and such that differ from others, or from zero, in a single byte.

use crate::data::{Id, ZERO_ID};
use crate::random::Random;

/// Never the zero ID.
pub fn new(random: &mut Random) -> Id {
    let mut id = ZERO_ID;
    match random.below(3) {
        0 => id[random.below(16)] = random.between(1, 255) as u8,
        1 => {
            id = [random.between(1, 255) as u8; 16];
            id[random.below(16)] = random.next() as u8;
        }
        _ => {
            for byte in &mut id {
                *byte = random.next() as u8;
            }
            id[0] |= 1;
        }
    }
    id
}
