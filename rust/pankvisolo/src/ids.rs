//! IDs of members as a group has them: of the four little-endian words the last three, and before
//! them the sum of all, wrapped. Where all of these are 0 there is no member, since no member's ID is
//! all zero.

use crate::protocol::Id;

pub(crate) type Words = [u32; 4];

/// None: no member.
pub(crate) fn of(words: Words) -> Option<Id> {
    let [sum, rest @ ..] = words;
    let first = rest.iter().fold(sum, |left, word| left.wrapping_sub(*word));
    let mut id = [0; 16];
    for (bytes, word) in id.chunks_exact_mut(4).zip([first].iter().chain(&rest)) {
        bytes.copy_from_slice(&word.to_le_bytes());
    }
    (words != [0; 4]).then_some(id)
}

#[cfg(test)]
pub(crate) fn words(id: Id) -> Words {
    let word = |index: usize| {
        let bytes = std::array::from_fn(|byte| id[4 * index + byte]);
        u32::from_le_bytes(bytes)
    };
    let [first, second, third, fourth] = std::array::from_fn(word);
    let sum = [second, third, fourth]
        .into_iter()
        .fold(first, u32::wrapping_add);
    [sum, second, third, fourth]
}

#[cfg(test)]
mod tests {
    use super::*;

    #[test]
    fn words_are_read_back() {
        let rising: Id = std::array::from_fn(|byte| byte as u8);
        for id in [rising, [0xFF; 16], *b"worker-1\0\0\0\0\0\0\0\0"] {
            assert_eq!(of(words(id)), Some(id));
        }
        assert_eq!(words([0; 16]), [0; 4]);
        assert_eq!(of([0; 4]), None);
    }

    #[test]
    fn the_first_word_is_the_sum_of_all() {
        let id = *b"\x01\0\0\0\x02\0\0\0\x03\0\0\0\0\0\0\x80";
        assert_eq!(words(id), [0x8000_0006, 2, 3, 0x8000_0000]);
        // It wraps, and a sum of 0 is no missing member.
        let id = *b"\xFF\xFF\xFF\xFF\x01\0\0\0\0\0\0\0\0\0\0\0";
        assert_eq!(words(id), [0, 1, 0, 0]);
        assert_eq!(of([0, 1, 0, 0]), Some(id));
    }
}
