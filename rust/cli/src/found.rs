//! What a journal is found to be, with the group that it has.

use std::io::{self, BufRead, Read};

use crate::coordinator::journal::{Reader, Verdict, HEADING};
use crate::coordinator::Group;
use crate::picture::Picture;
use crate::style::Style;

pub struct Found {
    /// The one after the last good batch.
    group: Group,
    pub batches: u64,
    /// Where the good part ends.
    end: usize,
    ending: Ending,
}

/// What follows the good part.
#[derive(Clone, Copy, PartialEq, Eq, Debug)]
enum Ending {
    Whole,
    /// So many bytes of a heading, or of a batch and its length.
    Torn(usize),
    Refused(Refused),
}

/// What it is that no journal has there.
#[derive(Clone, Copy, PartialEq, Eq, Debug)]
enum Refused {
    Heading,
    Length,
    Batch,
}

impl Found {
    /// Reads to the end, or as far as it takes to refuse. Nothing that is shown depends on the tick of
    /// reading.
    pub fn read(input: &mut dyn BufRead) -> io::Result<Found> {
        let mut reader = Reader::new(0);
        let mut batches = 0;
        // The bytes behind the good part.
        let mut begun = Vec::new();
        for byte in input.bytes() {
            let byte = byte?;
            let end = reader.end();
            reader.push(&[byte]);
            begun.push(byte);
            if let Verdict::Refused { .. } = reader.verdict() {
                break;
            }
            if reader.end() > end {
                begun.clear();
                // The heading is no batch.
                batches += u64::from(end > 0);
            }
        }
        Ok(Found {
            group: reader.group().clone(),
            batches,
            end: reader.end(),
            ending: match reader.verdict() {
                Verdict::Whole => Ending::Whole,
                Verdict::Torn { tail } => Ending::Torn(tail.len()),
                Verdict::Refused { offset } => Ending::Refused(refused(offset, &begun)),
            },
        })
    }

    pub fn has_batches_or_tail(&self) -> bool {
        self.batches > 0 || matches!(self.ending, Ending::Torn(1..))
    }

    /// Where and why it is refused, if it is.
    pub fn refusal(&self) -> Option<String> {
        match self.ending {
            Ending::Refused(what) => Some(format!("at offset {}: {}", self.end, what.words())),
            Ending::Whole | Ending::Torn(_) => None,
        }
    }

    /// The picture of the group, the number of batches and what follows them.
    pub fn lines(&self, style: Style) -> Vec<String> {
        let mut lines = Picture::of(&self.group).all_lines(style);
        lines.push(match self.batches {
            0 => "found   no batches".into(),
            1 => format!("found   1 batch in the first {} bytes", self.end),
            batches => format!("found   {batches} batches in the first {} bytes", self.end),
        });
        let end = self.end;
        lines.push(match self.ending {
            Ending::Whole => format!("whole   it ends at offset {end}"),
            Ending::Torn(tail) => format!("torn    at offset {end}: {}", torn(end, tail)),
            Ending::Refused(what) => {
                style.refusal(&format!("refused at offset {end}: {}", what.words()))
            }
        });
        lines
    }
}

/// A length is refused as soon as it is read: with its first byte or, where that one says that there
/// is a second, with that. A batch is longer then.
fn refused(offset: usize, begun: &[u8]) -> Refused {
    match begun {
        _ if offset == 0 => Refused::Heading,
        [_] | [0x80..=0xFF, _] => Refused::Length,
        _ => Refused::Batch,
    }
}

fn torn(end: usize, tail: usize) -> String {
    let what = match end {
        0 => "heading",
        _ => "batch",
    };
    match tail {
        0 => "there is nothing, not even a heading".into(),
        1 => format!("the last byte is an unfinished {what}, and is cut off before more is stored"),
        _ => format!(
            "the last {tail} bytes are an unfinished {what}, and are cut off before more is stored"
        ),
    }
}

impl Refused {
    fn words(self) -> String {
        match self {
            Refused::Heading => {
                let heading = HEADING.escape_ascii();
                format!("this is no journal, it does not begin with {heading}")
            }
            Refused::Length => "no batch has the length that stands there".into(),
            Refused::Batch => "no event would write this batch for the group so far".into(),
        }
    }
}

#[cfg(test)]
mod tests {
    use super::*;
    use std::io::BufReader;

    fn found(input: impl Read) -> io::Result<Found> {
        Found::read(&mut BufReader::new(input))
    }

    #[test]
    fn nothing_is_read_behind_a_refusal() {
        let endless = found(io::repeat(b'G')).unwrap();
        let heading = Ending::Refused(Refused::Heading);
        assert_eq!((endless.end, endless.ending), (0, heading));
        let endless = found(b"GRJ1".chain(io::repeat(0xFF))).unwrap();
        let length = Ending::Refused(Refused::Length);
        assert_eq!((endless.end, endless.ending), (4, length));
        let endless = found(b"GRJ1".chain(io::repeat(8))).unwrap();
        let batch = Ending::Refused(Refused::Batch);
        assert_eq!((endless.end, endless.ending), (4, batch));
    }

    struct Broken;

    impl Read for Broken {
        fn read(&mut self, _: &mut [u8]) -> io::Result<usize> {
            Err(io::ErrorKind::ConnectionReset.into())
        }
    }

    #[test]
    fn what_cannot_be_read_is_not_torn() {
        let error = found(b"GRJ1".chain(Broken)).err().unwrap();
        assert_eq!(error.kind(), io::ErrorKind::ConnectionReset);
    }
}
