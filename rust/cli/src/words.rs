//! A line cut into words, and what is said of a word that is wrong.

use std::fmt::Display;
use std::ops::RangeInclusive;

/// A word and where in its line it begins, in bytes.
#[derive(Clone, Copy, PartialEq, Eq, Debug)]
pub struct Word<'a> {
    pub text: &'a str,
    pub at: usize,
}

/// What is wrong with a line, what was expected, and the bytes of the line that it concerns; there
/// are none where something is missing.
#[derive(PartialEq, Eq, Debug)]
pub struct Fault {
    pub at: usize,
    pub length: usize,
    pub wrong: String,
    pub expected: String,
}

/// A line without its comment, and the comment without its `#`.
pub fn parts(line: &str) -> (&str, Option<&str>) {
    match line.split_once('#') {
        Some((event, comment)) => (event, Some(comment.trim())),
        None => (line, None),
    }
}

/// The words of a line without comment.
pub fn words(line: &str) -> Vec<Word<'_>> {
    let mut words = Vec::new();
    let mut at = 0;
    loop {
        let rest = &line[at..];
        at += rest.len() - rest.trim_start().len();
        let rest = &line[at..];
        let length = rest.find(char::is_whitespace).unwrap_or(rest.len());
        if length == 0 {
            return words;
        }
        let text = &rest[..length];
        words.push(Word { text, at });
        at += length;
    }
}

impl<'a> Word<'a> {
    pub fn fault(&self, wrong: impl Into<String>, expected: impl Into<String>) -> Fault {
        Fault {
            at: self.at,
            length: self.text.len(),
            wrong: wrong.into(),
            expected: expected.into(),
        }
    }

    /// The part of the word that begins `from` bytes after its begin and has `length` bytes.
    pub fn part(&self, from: usize, length: usize) -> Word<'a> {
        Word {
            text: &self.text[from..from + length],
            at: self.at + from,
        }
    }

    /// The part of the word after a prefix that it has.
    pub fn without(&self, prefix: &str) -> Option<Word<'a>> {
        let text = self.text.strip_prefix(prefix)?;
        Some(self.part(prefix.len(), text.len()))
    }

    /// The parts of the word between separators.
    pub fn split(&self, separator: char) -> Vec<Word<'a>> {
        let mut from = 0;
        let texts = self.text.split(separator);
        texts
            .map(|text| {
                let part = self.part(from, text.len());
                from += text.len() + separator.len_utf8();
                part
            })
            .collect()
    }

    /// The whole number that the word is, within bounds.
    pub fn number<T>(&self, bounds: RangeInclusive<T>) -> Result<T, Fault>
    where
        T: TryFrom<i64> + PartialOrd + Display,
    {
        let text = self.text;
        let expected = format!("a whole number from {} to {}", bounds.start(), bounds.end());
        if text.is_empty() {
            return Err(self.fault("a number is missing", expected));
        }
        let digits = text.strip_prefix('-').unwrap_or(text);
        if digits.is_empty() || !digits.bytes().all(|byte| byte.is_ascii_digit()) {
            return Err(self.fault(format!("'{text}' is not a number"), expected));
        }
        // What is too large for 64 bits is out of bounds as well.
        let number = text
            .parse()
            .ok()
            .and_then(|number| T::try_from(number).ok());
        match number.filter(|number| bounds.contains(number)) {
            Some(number) => Ok(number),
            None => Err(self.fault(format!("{text} is out of bounds"), expected)),
        }
    }
}

#[cfg(test)]
mod tests {
    use super::*;

    fn word(text: &str) -> Word<'_> {
        Word { text, at: 7 }
    }

    #[test]
    fn words_know_where_they_begin() {
        let [one, two] = words("  beat\tAA \r").try_into().unwrap();
        assert_eq!((one.text, one.at), ("beat", 2));
        assert_eq!((two.text, two.at), ("AA", 7));
        assert_eq!(words(""), []);
        assert_eq!(words(" \t"), []);
    }

    #[test]
    fn a_comment_begins_at_the_first_hash() {
        assert_eq!(parts("sweep # a # b "), ("sweep ", Some("a # b")));
        assert_eq!(parts("# all"), ("", Some("all")));
        assert_eq!(parts("sweep"), ("sweep", None));
    }

    #[test]
    fn a_split_word_keeps_its_place() {
        let [one, none, two] = word("0-2,,5").split(',').try_into().unwrap();
        assert_eq!((one.text, one.at), ("0-2", 7));
        assert_eq!((none.text, none.at), ("", 11));
        assert_eq!((two.text, two.at), ("5", 12));
    }

    #[test]
    fn numbers_at_their_bounds() {
        assert_eq!(word("0").number(0..=u32::MAX), Ok(0));
        assert_eq!(word("4294967295").number(0..=u32::MAX), Ok(u32::MAX));
        assert_eq!(
            word("-2147483648").number(i32::MIN..=i32::MAX),
            Ok(i32::MIN)
        );
        assert_eq!(word("-1").number(i32::MIN..=i32::MAX), Ok(-1));
    }

    #[test]
    fn numbers_out_of_bounds_and_no_numbers() {
        for text in ["16", "-1", "99999999999999999999"] {
            let fault = word(text).number::<u8>(0..=15).unwrap_err();
            assert_eq!(fault.wrong, format!("{text} is out of bounds"));
            assert_eq!(fault.expected, "a whole number from 0 to 15");
            assert_eq!((fault.at, fault.length), (7, text.len()));
        }
        let fault = word("").number::<u8>(0..=15).unwrap_err();
        assert_eq!(fault.wrong, "a number is missing");
        for text in ["x", "-", "+1", "1.5", "1x", "--1", "٣"] {
            let fault = word(text).number::<u8>(0..=15).unwrap_err();
            assert_eq!(fault.wrong, format!("'{text}' is not a number"));
        }
    }
}
