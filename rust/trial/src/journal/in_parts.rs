//! The binding's reader in parts: it must stand after all parts where the whole file is read to.

use super::{Reading, Reads, Verdict};
use crate::random::Random;

pub struct InParts;

/// Parts of no byte up to more than the longest batch has.
const PARTS: [usize; 6] = [0, 1, 3, 40, 700, 5_000];

impl Reads for InParts {
    type Group = pankvisolo::Group;

    const HEADING: [u8; 4] = pankvisolo::journal::HEADING;

    fn frame(records: &[u8], out: &mut [u8]) -> Option<usize> {
        pankvisolo::journal::frame(records, out)
    }

    /// What follows the good part has left no trace in the group, not even where no function shows
    /// it. A tail is compared, and then handed back as a part of the file, as a reader of it whole does.
    fn read(bytes: &[u8], tick: u32) -> Reading<'_, Self::Group> {
        let mut reader = pankvisolo::journal::Reader::new(tick);
        let mut random = Random::new(bytes.len() as u64);
        let mut rest = bytes;
        while !rest.is_empty() {
            let most = random.pick(&PARTS);
            let (part, more) = rest.split_at(random.below(most + 1).min(rest.len()));
            reader.push(part);
            rest = more;
        }
        let end = reader.end();
        for file in [bytes, &bytes[..end]] {
            let whole = pankvisolo::journal::read(file, tick);
            assert!(
                *reader.group() == whole.group,
                "not the group of the file whole"
            );
        }
        let verdict = match reader.verdict() {
            pankvisolo::journal::Verdict::Whole => Verdict::Whole,
            pankvisolo::journal::Verdict::Torn { tail } => {
                assert_eq!(tail, &bytes[end..]);
                Verdict::Torn {
                    tail: &bytes[end..],
                }
            }
            pankvisolo::journal::Verdict::Refused { offset } => Verdict::Refused { offset },
        };
        Reading {
            group: reader.group().clone(),
            end,
            verdict,
        }
    }
}
