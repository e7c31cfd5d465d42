//! Bytes in hex, runs of equal ones short: `AA x16`.

use crate::wrap::{self, WIDTH};

/// A shorter run is written out.
const SHORTEST_RUN: usize = 4;

/// The bytes in lines, broken between two bytes; no bytes are one line `none`.
pub fn lines(bytes: &[u8]) -> Vec<String> {
    match bytes {
        [] => vec!["none".into()],
        _ => wrap::lines(words(bytes), WIDTH),
    }
}

fn words(bytes: &[u8]) -> Vec<String> {
    let runs = bytes.chunk_by(|one, next| one == next);
    runs.flat_map(|run| {
        let byte = format!("{:02X}", run[0]);
        match run.len() {
            SHORTEST_RUN.. => vec![format!("{byte} x{}", run.len())],
            short => vec![byte; short],
        }
    })
    .collect()
}

#[cfg(test)]
mod tests {
    use super::*;

    #[test]
    fn runs_of_four_and_more_are_short() {
        assert_eq!(lines(&[]), ["none"]);
        assert_eq!(
            lines(&[7, 0, 3, 0, 1, 1, 6, 1]),
            ["07 00 03 00 01 01 06 01"]
        );
        assert_eq!(lines(&[1, 1, 1]), ["01 01 01"]);
        assert_eq!(lines(&[1, 1, 1, 1]), ["01 x4"]);
        let mut topic = vec![4, 0];
        topic.extend([0x11; 16]);
        topic.push(3);
        assert_eq!(lines(&topic), ["04 00 11 x16 03"]);
    }

    #[test]
    fn long_lines_are_broken_between_bytes() {
        let bytes: Vec<u8> = (0..50).collect();
        let lines = lines(&bytes);
        assert_eq!(lines.len(), 3);
        assert!(lines[0].ends_with("14 15"));
        assert!(lines[1].starts_with("16 17"));
        assert!(lines.iter().all(|line| line.len() <= WIDTH));
    }
}
