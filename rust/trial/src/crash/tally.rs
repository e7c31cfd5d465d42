//! Counts of what the killed brokers did.

use std::fmt;

#[derive(Clone, Default)]
pub struct Tally {
    pub journals: u64,
    pub kills: u64,
    /// Of the kills, those before the journal was open.
    pub at_opening: u64,
    /// Events that were sent, and answers that went out; the rest was under way at a kill.
    pub events: u64,
    pub answers: u64,
    /// Of the answers, those whose event had stored a batch: none of them is lost.
    pub stored: u64,
    /// Events without an answer whose batch is in the file, and those whose batch isn't.
    pub found: u64,
    pub gone: u64,
    /// Files that lost bytes behind the last sync, and files with a torn tail.
    pub cut: u64,
    pub torn: u64,
    /// Bytes of all journals at their end.
    pub bytes: u64,
}

impl Tally {
    /// All that was never met, in words.
    pub fn never(&self) -> Vec<String> {
        let counts = [
            (self.at_opening, "killed while it opened"),
            (self.stored, "answered and stored"),
            (self.found, "stored and not answered"),
            (self.gone, "neither stored nor answered"),
            (self.cut, "lost bytes behind the last sync"),
            (self.torn, "a torn tail"),
        ];
        let never = counts.into_iter().filter(|(count, _)| *count == 0);
        never.map(|(_, what)| what.into()).collect()
    }
}

impl fmt::Display for Tally {
    fn fmt(&self, f: &mut fmt::Formatter) -> fmt::Result {
        let lines = [
            (self.kills, "kills, and as many restarts"),
            (self.at_opening, "of them while the journal was opened"),
            (self.journals, "journals"),
            (self.bytes, "bytes in them at their end"),
            (self.events, "events sent"),
            (self.answers, "answers that went out"),
            (self.stored, "of them with a batch, and none was lost"),
            (
                self.found,
                "events without an answer, whose batch was found",
            ),
            (self.gone, "events without an answer, whose batch was not"),
            (self.cut, "files cut behind their last synced batch"),
            (self.torn, "files with a torn tail"),
        ];
        for (count, what) in lines {
            writeln!(f, "{count:>10}  {what}")?;
        }
        Ok(())
    }
}
