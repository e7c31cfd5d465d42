//! A set of slots, as 1,024 bits.

use crate::data::SLOTS;

const WORDS: usize = SLOTS / 64;

#[derive(Clone, Copy, PartialEq, Eq, Debug, Default)]
pub struct SlotSet {
    words: [u64; WORDS],
}

impl SlotSet {
    /// The set of a list, or the number in it that is no slot.
    pub fn of(list: &[u16]) -> Result<SlotSet, u16> {
        let mut set = SlotSet::default();
        for &slot in list {
            let word = set.words.get_mut(usize::from(slot / 64)).ok_or(slot)?;
            *word |= 1 << (slot % 64);
        }
        Ok(set)
    }

    pub fn add(&mut self, other: &SlotSet) {
        for (word, more) in self.words.iter_mut().zip(&other.words) {
            *word |= more;
        }
    }

    /// The lowest slot in both.
    pub fn common(&self, other: &SlotSet) -> Option<u16> {
        let pairs = self.words.iter().zip(&other.words);
        for (index, (one, two)) in pairs.enumerate() {
            let both = one & two;
            if both != 0 {
                return Some(index as u16 * 64 + both.trailing_zeros() as u16);
            }
        }
        None
    }
}

#[cfg(test)]
mod tests {
    use super::*;

    #[test]
    fn sets_meet_in_their_lowest_common_slot() {
        let one = SlotSet::of(&[0, 64, 700, 1_023]).unwrap();
        let two = SlotSet::of(&[1, 65, 1_023]).unwrap();
        assert_eq!(one.common(&two), Some(1_023));
        let mut more = two;
        more.add(&SlotSet::of(&[64]).unwrap());
        assert_eq!(one.common(&more), Some(64));
        assert_eq!(two.common(&SlotSet::of(&[0]).unwrap()), None);
        assert_eq!(SlotSet::of(&[3, 1_024]), Err(1_024));
    }
}
