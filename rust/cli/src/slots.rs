//! Sets of slots in text: `0-2,5` by slot number, `t1:0-2,5` by topic and partition.

use crate::group::{PARTITIONS, TOPICS};
use crate::words::{Fault, Word};

const EXPECTED: &str = "slots such as 5, 0-2, 0-2,5 or t1:0-2,5";

/// The word for no slots.
pub const NONE: &str = "none";

/// The slots of all words, in the order written; those that stand alone may be any 16-bit number,
/// so that a list can be tried that is none.
pub fn read(words: &[Word]) -> Result<Vec<u16>, Fault> {
    let mut slots = Vec::new();
    for word in words {
        slots.extend(read_word(*word)?);
    }
    Ok(slots)
}

/// As `read`, and `none` alone is the empty list.
pub fn read_or_none(words: &[Word]) -> Result<Vec<u16>, Fault> {
    match words {
        [word] if word.text == NONE => Ok(Vec::new()),
        _ => read(words),
    }
}

fn read_word(word: Word) -> Result<Vec<u16>, Fault> {
    match word.split(':')[..] {
        [ranges] if !ranges.text.starts_with(char::is_alphabetic) => read_ranges(ranges, u16::MAX),
        [topic, partitions] => {
            let topic = topic
                .without("t")
                .ok_or_else(|| word.fault(format!("'{}' is no set of slots", word.text), EXPECTED))?
                .number(0..=TOPICS - 1)?;
            let partitions = read_ranges(partitions, PARTITIONS - 1)?;
            let first = u16::from(topic) * PARTITIONS;
            Ok(partitions
                .iter()
                .map(|partition| first + partition)
                .collect())
        }
        _ => Err(word.fault(format!("'{}' is no set of slots", word.text), EXPECTED)),
    }
}

/// The numbers of ranges between commas.
pub fn read_ranges(word: Word, largest: u16) -> Result<Vec<u16>, Fault> {
    let mut numbers = Vec::new();
    for range in word.split(',') {
        match range.split('-')[..] {
            [number] => numbers.push(number.number(0..=largest)?),
            [first, last] => {
                let (first, last) = (first.number(0..=largest)?, last.number(0..=largest)?);
                if first > last {
                    let wrong = format!("the range '{}' falls", range.text);
                    return Err(range.fault(wrong, "the lower number first"));
                }
                numbers.extend(first..=last);
            }
            _ => return Err(range.fault(format!("'{}' is no range", range.text), EXPECTED)),
        }
    }
    Ok(numbers)
}

/// Rising slots by topic and partition, `t0:0-2,5 t1:3`; `none` if there are none.
pub fn show(slots: &[u16]) -> String {
    if slots.is_empty() {
        return NONE.into();
    }
    let by_topic = slots.chunk_by(|one, next| one / PARTITIONS == next / PARTITIONS);
    let words: Vec<String> = by_topic
        .map(|slots| {
            let partitions: Vec<u16> = slots.iter().map(|slot| slot % PARTITIONS).collect();
            format!("t{}:{}", slots[0] / PARTITIONS, show_ranges(&partitions))
        })
        .collect();
    words.join(" ")
}

/// Rising numbers as ranges, `0-2,5`.
fn show_ranges(numbers: &[u16]) -> String {
    let runs = numbers.chunk_by(|one, next| one + 1 == *next);
    let ranges: Vec<String> = runs
        .map(|run| match run {
            [first, .., last] => format!("{first}-{last}"),
            _ => run[0].to_string(),
        })
        .collect();
    ranges.join(",")
}

#[cfg(test)]
mod tests {
    use super::*;
    use crate::words::words;

    fn slots(text: &str) -> Vec<u16> {
        read_or_none(&words(text)).unwrap()
    }

    fn fault(text: &str) -> (String, String, usize) {
        let fault = read_or_none(&words(text)).unwrap_err();
        (fault.wrong, fault.expected, fault.at)
    }

    #[test]
    fn slots_by_number() {
        assert_eq!(slots("5"), [5]);
        assert_eq!(slots("0-2 5"), [0, 1, 2, 5]);
        assert_eq!(slots("0-2,5"), [0, 1, 2, 5]);
        assert_eq!(slots("3-3"), [3]);
        assert_eq!(slots("1023 65535"), [1023, 65535]);
    }

    #[test]
    fn slots_by_topic_and_partition() {
        assert_eq!(slots("t0:0-2"), [0, 1, 2]);
        assert_eq!(slots("t1:0,63 t15:63"), [64, 127, 1023]);
    }

    #[test]
    fn the_order_written_is_kept() {
        assert_eq!(slots("2 1 1"), [2, 1, 1]);
        assert_eq!(slots("none"), []);
    }

    #[test]
    fn what_is_no_set_of_slots() {
        let number = |largest: u32| format!("a whole number from 0 to {largest}");
        assert_eq!(
            fault("1 2x"),
            ("'2x' is not a number".into(), number(65535), 2)
        );
        assert_eq!(
            fault("0-"),
            ("a number is missing".into(), number(65535), 2)
        );
        assert_eq!(
            fault("65536"),
            ("65536 is out of bounds".into(), number(65535), 0)
        );
        assert_eq!(
            fault("t16:0"),
            ("16 is out of bounds".into(), number(15), 1)
        );
        assert_eq!(
            fault("t0:1,64"),
            ("64 is out of bounds".into(), number(63), 5)
        );
        let falls = "the range '2-1' falls".into();
        assert_eq!(fault("t0:2-1"), (falls, "the lower number first".into(), 3));
        let ranges = "'1-2-3' is no range".into();
        assert_eq!(fault("0,1-2-3"), (ranges, EXPECTED.into(), 2));
        for text in ["tic", "t0", "x0:1", "0:1", "t0:1:2", ":"] {
            let wrong = format!("'{text}' is no set of slots");
            assert_eq!(fault(text), (wrong, EXPECTED.into(), 0));
        }
        assert_eq!(fault("1 none").0, "'none' is no set of slots");
    }

    #[test]
    fn slots_are_shown_in_ranges_by_topic() {
        assert_eq!(show(&[]), "none");
        assert_eq!(show(&[0]), "t0:0");
        assert_eq!(show(&[0, 1]), "t0:0-1");
        assert_eq!(show(&[0, 1, 2, 5, 7, 8]), "t0:0-2,5,7-8");
        assert_eq!(show(&[62, 63, 64, 65]), "t0:62-63 t1:0-1");
        assert_eq!(show(&[127, 1023]), "t1:63 t15:63");
        let all: Vec<u16> = (0..128).collect();
        assert_eq!(show(&all), "t0:0-63 t1:0-63");
    }

    #[test]
    fn what_is_shown_is_read_back() {
        for list in [vec![], vec![0, 2, 3, 64, 200, 201, 202, 1023]] {
            assert_eq!(slots(&show(&list)), list);
        }
    }
}
