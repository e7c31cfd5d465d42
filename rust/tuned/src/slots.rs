//! Sets of slots.

use plain::{PARTITIONS, SLOTS, TOPICS};

/// A word for each topic, in which bit p is partition p.
pub(crate) type Words = [u64; TOPICS];

/// The words, and how many slots they have.
#[derive(Clone, Copy, PartialEq, Eq)]
pub(crate) struct Slots {
    count: usize,
    words: Words,
}

impl Slots {
    pub const EMPTY: Slots = Slots {
        count: 0,
        words: [0; TOPICS],
    };

    pub fn of(words: Words) -> Slots {
        let ones = words.iter().map(|word| word.count_ones());
        Slots {
            count: ones.sum::<u32>() as usize,
            words,
        }
    }

    pub fn count(&self) -> usize {
        self.count
    }

    pub fn words(&self) -> &Words {
        &self.words
    }

    pub fn is_empty(&self) -> bool {
        self.count == 0
    }

    /// Of a slot up to 1,023.
    #[inline]
    pub fn contains(&self, slot: u16) -> bool {
        let slot = usize::from(slot) % SLOTS;
        self.words[slot / PARTITIONS] >> (slot % PARTITIONS) & 1 == 1
    }

    #[inline]
    pub fn is_subset(&self, of: &Slots) -> bool {
        let words = self.words.iter().zip(&of.words);
        words.fold(0, |outside, (word, of)| outside | word & !of) == 0
    }

    #[inline]
    pub fn and(&self, other: &Slots) -> Slots {
        self.with(other, |word, other| word & other)
    }

    #[inline]
    pub fn minus(&self, other: &Slots) -> Slots {
        self.with(other, |word, other| word & !other)
    }

    /// With every slot of the target that is not in `held`, or is being freed.
    #[inline]
    pub fn with_free(&self, target: &Slots, held: &Words, freed: &Slots) -> Slots {
        let mut words = self.words;
        for (index, word) in words.iter_mut().enumerate() {
            *word |= target.words[index] & (!held[index] | freed.words[index]);
        }
        Slots::of(words)
    }

    #[inline]
    fn with(&self, other: &Slots, both: impl Fn(u64, u64) -> u64) -> Slots {
        let mut words = self.words;
        for (word, &other) in words.iter_mut().zip(&other.words) {
            *word = both(*word, other);
        }
        Slots::of(words)
    }

    /// By rising slot.
    #[inline]
    pub fn for_each(&self, mut each: impl FnMut(u16)) {
        for (first, &word) in (0..).step_by(PARTITIONS).zip(&self.words) {
            let mut left = word;
            while left != 0 {
                each(first + left.trailing_zeros() as u16);
                left &= left - 1;
            }
        }
    }
}

/// Takes the slots from the words.
#[inline]
pub(crate) fn remove(from: &mut Words, slots: &Slots) {
    for (word, gone) in from.iter_mut().zip(&slots.words) {
        *word &= !gone;
    }
}

/// Adds the slots to the words.
#[inline]
pub(crate) fn add(to: &mut Words, slots: &Slots) {
    for (word, new) in to.iter_mut().zip(&slots.words) {
        *word |= new;
    }
}

#[cfg(test)]
mod tests {
    use super::*;

    fn set(slots: &[u16]) -> Slots {
        let mut words = [0; TOPICS];
        for &slot in slots {
            words[usize::from(slot) / PARTITIONS] |= 1 << (slot % 64);
        }
        Slots::of(words)
    }

    fn list(set: Slots) -> Vec<u16> {
        let mut list = Vec::new();
        set.for_each(|slot| list.push(slot));
        list
    }

    #[test]
    fn a_set_is_read_back_rising() {
        for slots in [&[][..], &[0], &[63, 64], &[5, 6, 300, 1_023]] {
            let set = set(slots);
            assert_eq!(list(set), slots);
            assert_eq!(
                (set.count(), set.is_empty()),
                (slots.len(), slots.is_empty())
            );
            assert!((0..1_024).all(|slot| set.contains(slot) == slots.contains(&slot)));
        }
    }

    #[test]
    fn sets_are_put_together() {
        let (one, other) = (set(&[1, 64, 200]), set(&[64, 200, 1_000]));
        assert_eq!(list(one.and(&other)), [64, 200]);
        assert_eq!(list(one.minus(&other)), [1]);
        let mut words = *one.words();
        add(&mut words, &other);
        assert_eq!(list(Slots::of(words)), [1, 64, 200, 1_000]);
        remove(&mut words, &one);
        assert_eq!(list(Slots::of(words)), [1_000]);
        assert!(one.and(&other).is_subset(&one) && Slots::EMPTY.is_subset(&one));
        assert!(!one.is_subset(&other));
    }

    /// 5 is held by another, 6 is being freed, 7 is nobody's and 8 is nobody's target.
    #[test]
    fn what_is_free_of_a_target_is_added() {
        let (target, held, freed) = (set(&[1, 5, 6, 7]), set(&[1, 5, 6]), set(&[6]));
        let with_free = set(&[1]).with_free(&target, held.words(), &freed);
        assert_eq!(list(with_free), [1, 6, 7]);
    }
}
