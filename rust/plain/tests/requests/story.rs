//! Events whose journal is kept: the file, and the group after each batch.

use super::host::*;
use crate::coordinator::journal::{self, Verdict, HEADING};
use crate::coordinator::Group;

/// The tick of every reading here, unlike that of any event.
pub const READ_AT: u32 = 77_000;

pub struct Story {
    pub host: Host,
    pub file: Vec<u8>,
    /// After the heading and after each batch: where it ends, and the group then.
    pub ends: Vec<(usize, Picture)>,
}

impl Story {
    pub fn new() -> Story {
        let host = Host::new(1_000);
        let fresh = at_reading(picture(&host.group));
        Story {
            host,
            file: HEADING.to_vec(),
            ends: vec![(HEADING.len(), fresh)],
        }
    }

    /// An event; what it stores goes to the file.
    pub fn play(&mut self, event: impl FnOnce(&mut Host) -> Given) -> &mut Story {
        let given = event(&mut self.host);
        if !given.bytes.is_empty() {
            self.file.extend(framed(&given.bytes));
            let after = at_reading(picture(&self.host.group));
            self.ends.push((self.file.len(), after));
        }
        self
    }

    /// P1 to P4.
    pub fn of_p4() -> Story {
        let mut story = Story::new();
        story
            .play(|host| host.topic(0, [0x11; 16], 3))
            .play(|host| host.heartbeat(join(AA, 1_000)))
            .play(|host| host.install(1, &entries(&[(0, 0), (1, 0), (2, 0)])))
            .play(|host| host.heartbeat(ordinary(AA, 1, 1_000, None)));
        story
    }

    /// P1 to P8: A of AA*, at place 0, is 0 1, its P is 2, which the target gives to BB* at place 1.
    pub fn of_p8() -> Story {
        let mut story = Story::of_p4();
        story
            .play(|host| host.heartbeat(join(BB, 2_000)))
            .play(|host| host.install(2, &entries(&[(0, 0), (1, 0), (2, 1)])))
            .play(|host| host.heartbeat(ordinary(BB, 2, 2_000, Some(&[]))))
            .play(|host| host.heartbeat(ordinary(AA, 1, 2_000, Some(&[0, 1, 2]))));
        story
    }

    pub fn of_p11() -> Story {
        let mut story = Story::of_p8();
        story
            .play(|host| host.heartbeat(ordinary(AA, 1, 2_000, None)))
            .play(|host| host.heartbeat(ordinary(AA, 1, 2_000, Some(&[0, 1]))))
            .play(|host| host.heartbeat(ordinary(BB, 2, 2_000, Some(&[]))));
        story
    }

    /// The end of the last batch, and the group then.
    pub fn last(&self) -> &(usize, Picture) {
        self.ends.last().expect("the heading's end at least")
    }

    /// A batch after those of the file is read; the group after it.
    pub fn reads(&self, batch: &str) -> Group {
        let file = [&self.file[..], &framed(&hex(batch))].concat();
        let reading = journal::read(&file, READ_AT);
        assert_eq!(reading.verdict, Verdict::Whole, "{batch}");
        assert_eq!(reading.end, file.len(), "{batch}");
        reading.group
    }

    /// A batch is read, and the story goes on with the group after it, at the tick of reading.
    pub fn finds(&mut self, batch: &str) -> &mut Story {
        self.host.group = self.reads(batch);
        self.file.extend(framed(&hex(batch)));
        let after = picture(&self.host.group);
        self.ends.push((self.file.len(), after));
        self
    }

    /// A batch after those of the file is refused; the group is the one before it.
    pub fn refuses(&self, batch: &str) {
        let file = [&self.file[..], &framed(&hex(batch))].concat();
        let reading = journal::read(&file, READ_AT);
        let (offset, before) = self.last();
        let offset = *offset;
        assert_eq!(reading.verdict, Verdict::Refused { offset }, "{batch}");
        assert_eq!(reading.end, offset, "{batch}");
        assert_eq!(picture(&reading.group), *before, "{batch}");
    }
}

pub fn framed(records: &[u8]) -> Vec<u8> {
    let mut out = vec![0; records.len() + 2];
    let written = journal::frame(records, &mut out).expect("a batch");
    out.truncate(written);
    out
}

/// "every last-heard tick, the tick P was set and the last tick become the tick of reading".
pub fn at_reading(mut picture: Picture) -> Picture {
    picture.last_tick = READ_AT;
    for member in picture.members.iter_mut().flatten() {
        member.heard = READ_AT;
        member.revoked_at = READ_AT;
    }
    picture
}
