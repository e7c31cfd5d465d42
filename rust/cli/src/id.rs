//! IDs in text: a byte in hex for sixteen of it, 32 hex digits, or a name padded with zeros.

use crate::coordinator::Id;
use crate::words::{Fault, Word};

const EXPECTED: &str = "two hex digits (that byte sixteen times), 32 hex digits, \
                        or a name of 1 to 16 letters, digits, '-', '_' or '.'";

pub fn read(word: Word) -> Result<Id, Fault> {
    from_text(word.text).ok_or_else(|| word.fault(format!("'{}' is no ID", word.text), EXPECTED))
}

/// The ID in the shortest form that `read` takes, or shortened if only 32 digits would do.
pub fn show(id: &Id) -> String {
    if id.iter().all(|&byte| byte == id[0]) {
        return format!("{:02X}", id[0]);
    }
    let name: String = id.iter().map(|&byte| char::from(byte)).collect();
    let name = name.trim_end_matches('\0');
    if from_text(name).as_ref() == Some(id) {
        return name.into();
    }
    let [first, second, .., last_but_one, last] = id;
    format!("{first:02X}{second:02X}..{last_but_one:02X}{last:02X}")
}

fn from_text(text: &str) -> Option<Id> {
    match (hex(text), text.len()) {
        (Some(bytes), 2) => Some([bytes[0]; 16]),
        (Some(bytes), 32) => bytes.try_into().ok(),
        (_, 1..=16) if text.bytes().all(is_of_name) => {
            let mut id = Id::default();
            id[..text.len()].copy_from_slice(text.as_bytes());
            Some(id)
        }
        _ => None,
    }
}

/// The bytes that pairs of hex digits stand for.
fn hex(text: &str) -> Option<Vec<u8>> {
    let digits: Option<Vec<u32>> = text.chars().map(|digit| digit.to_digit(16)).collect();
    let digits = digits?;
    let pairs = digits.chunks(2);
    pairs
        .map(|pair| match pair {
            [high, low] => u8::try_from(high * 16 + low).ok(),
            _ => None,
        })
        .collect()
}

fn is_of_name(byte: u8) -> bool {
    byte.is_ascii_alphanumeric() || b"-_.".contains(&byte)
}

#[cfg(test)]
mod tests {
    use super::*;

    fn id(text: &str) -> Id {
        read(Word { text, at: 0 }).unwrap()
    }

    #[test]
    fn two_digits_are_a_byte_sixteen_times() {
        assert_eq!(id("AA"), [0xAA; 16]);
        assert_eq!(id("0f"), [0x0F; 16]);
        assert_eq!(id("00"), [0; 16]);
    }

    #[test]
    fn thirty_two_digits_are_the_id() {
        let bytes: Vec<u8> = (1..=16).collect();
        assert_eq!(id("0102030405060708090a0B0c0D0e0F10").to_vec(), bytes);
    }

    #[test]
    fn a_name_is_padded_with_zeros() {
        assert_eq!(id("worker-1"), *b"worker-1\0\0\0\0\0\0\0\0");
        assert_eq!(id("a"), *b"a\0\0\0\0\0\0\0\0\0\0\0\0\0\0\0");
        assert_eq!(id("abc"), *b"abc\0\0\0\0\0\0\0\0\0\0\0\0\0");
        assert_eq!(id("0123456789abcdef"), *b"0123456789abcdef");
    }

    #[test]
    fn what_is_no_id() {
        let long = "0123456789abcdefg";
        let digits = "0102030405060708090a0b0c0d0e0f1";
        for text in ["", long, digits, "a/b", "a:b", "été"] {
            let fault = read(Word { text, at: 3 }).unwrap_err();
            assert_eq!(fault.wrong, format!("'{text}' is no ID"));
            assert_eq!(fault.expected, EXPECTED);
            assert_eq!((fault.at, fault.length), (3, text.len()));
        }
    }

    #[test]
    fn ids_are_shown_as_they_are_read() {
        for text in ["AA", "00", "worker-1", "abc", "0123456789abcdef", "x"] {
            assert_eq!(show(&id(text)), text);
        }
        let digits = "0102030405060708090a0b0c0d0e0f10";
        assert_eq!(show(&id(digits)), "0102..0F10");
        // The name `AA` would be read as a byte, so it is not shown as one.
        assert_eq!(show(b"AA\0\0\0\0\0\0\0\0\0\0\0\0\0\0"), "4141..0000");
    }
}
