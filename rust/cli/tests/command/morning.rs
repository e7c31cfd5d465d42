//! The built-in example: 01's P1 to P12.

pub const SCRIPT: &str = include_str!("../../src/example.txt");
pub const PRINTED: &str = include_str!("../golden/worked_example.txt");

/// P1 to P12 as 01 has them: the bytes, the answer's epoch and its slots.
pub const P1_TO_P12: [(&str, &str); 12] = [
    ("04 00 11* 03", "done"),
    (
        "05 00 01 AA* AC 02 01 03 01 08 00 01 00 00",
        "epoch 1; none",
    ),
    ("07 00 03 00 01 01 06 01", "done"),
    ("08 00 01 03 00 01 01 00", "epoch 1; t0:0-2"),
    (
        "05 01 01 BB* AC 02 01 03 02 08 01 02 00 00",
        "epoch 2; none",
    ),
    ("07 00 02 00 01 07 01 01 02 06 02", "done"),
    ("none", "epoch 2; none"),
    ("08 00 01 02 00 01 01 02", "epoch 1; t0:0-1"),
    ("none", "epoch 1; t0:0-1"),
    ("08 00 02 02 00 01 00", "epoch 2; t0:0-1"),
    ("08 01 02 01 02 00", "epoch 2; t0:2"),
    ("none", "refused 1005 ALREADY"),
];

/// The journal of the first of these events, and of as many as are asked for: 02's heading, and for
/// each that wrote records their length, which is below 128 here, and the records.
pub fn journal_after(events: usize) -> Vec<u8> {
    let mut journal = b"GRJ1".to_vec();
    for (records, _) in &P1_TO_P12[..events] {
        if *records != "none" {
            let records = bytes(records);
            journal.push(records.len() as u8);
            journal.extend(records);
        }
    }
    journal
}

pub fn journal() -> Vec<u8> {
    journal_after(P1_TO_P12.len())
}

/// Where its heading and each of its batches end.
pub fn ends() -> Vec<usize> {
    let mut ends: Vec<usize> = (0..=P1_TO_P12.len())
        .map(|events| journal_after(events).len())
        .collect();
    ends.dedup();
    ends
}

/// Bytes in hex; `AA*` is sixteen of them.
pub fn bytes(hex: &str) -> Vec<u8> {
    let mut bytes = Vec::new();
    for word in hex.split_whitespace() {
        let (digits, times) = match word.strip_suffix('*') {
            Some(digits) => (digits, 16),
            None => (word, 1),
        };
        let byte = u8::from_str_radix(digits, 16).unwrap();
        bytes.extend(std::iter::repeat_n(byte, times));
    }
    bytes
}
