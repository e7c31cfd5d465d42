//! The worked example as a host in C or C++ would run it, and the README's few lines.

use super::c_compiler::{output_in, output_of_text, Language};

const PRINTED: &str = "\
P1: 0, interval 0, epoch 0, count 0, slot 65535
  slots
  bytes 04 00 11 11 11 11 11 11 11 11 11 11 11 11 11 11 11 11 03
  G 0, T 0, tick 1000
P2: 0, interval 5000, epoch 1, count 0, slot 65535
  slots
  bytes 05 00 01 AA AA AA AA AA AA AA AA AA AA AA AA AA AA AA AA AC 02 01 03 01 08 00 01 00 00
  G 1, T 0, tick 1000
P3: 0, interval 0, epoch 0, count 0, slot 65535
  slots
  bytes 07 00 03 00 01 01 06 01
  G 1, T 1, tick 1000
P4: 0, interval 5000, epoch 1, count 3, slot 65535
  slots 0 1 2
  bytes 08 00 01 03 00 01 01 00
  G 1, T 1, tick 1000
install again: 1005, interval 0, epoch 0, count 0, slot 65535
  slots
  bytes
  G 1, T 1, tick 1000
short install: 1006, interval 0, epoch 0, count 0, slot 65535
  slots
  bytes
  G 1, T 1, tick 1000
sweep: 0, interval 0, epoch 0, count 1, slot 65535
  slots
  bytes 08 00 00 07 00 00 05 00 00 03 02
  G 2, T 1, tick 46000
journal, 84 bytes: verdict 0, end 84
  G 2, T 1, tick 60000
cut, 83 bytes: verdict 1, end 72
  G 1, T 1, tick 60000
another epoch, 84 bytes: verdict 2, end 72
  G 1, T 1, tick 60000
by batches: 5-24 25-54 55-63 64-72 73-84
  verdict 0, G 2, T 1, tick 60000
";

#[test]
fn p1_to_p4_refusals_a_sweep_and_the_journal() {
    for language in [Language::C99, Language::C11, Language::Cpp17] {
        assert_eq!(output_in(language, "worked_example"), PRINTED);
    }
}

/// The README's program prints what the README says, between its command and the block's end.
#[test]
fn the_program_of_the_readme() {
    let readme = include_str!("../../../../README.md");
    let between = |from: &str, to: &str| {
        let (_, rest) = readme.split_once(from).expect(from);
        rest.split_once(to).expect(to).0
    };
    let printed = output_of_text(Language::C11, between("```c\n", "```"));
    assert_eq!(printed, between("-o host && ./host\n", "```"));
}
