//! Runs steps on a group and prints what comes of each.

use std::io::{self, Write};
use std::mem;

use crate::coordinator::Answer;
use crate::event::{range_install, Event, Lent, Outcome};
use crate::failure::Failure;
use crate::found::Found;
use crate::host::Host;
use crate::line::Step;
use crate::picture::Picture;
use crate::style::Style;
use crate::words::parts;
use crate::wrap::{self, WIDTH};
use crate::{answer, hex, slots, target, why};

pub struct Session<W> {
    out: W,
    style: Style,
    host: Host,
    /// The picture drawn last.
    drawn: Picture,
    /// The events that this group has seen here.
    events: u64,
}

impl<W: Write> Session<W> {
    pub fn new(host: Host, out: W, style: Style) -> Session<W> {
        Session {
            out,
            style,
            drawn: Picture::of(host.group()),
            host,
            events: 0,
        }
    }

    /// Prints what the journal was found to be that the session goes on with.
    pub fn goes_on(&mut self, name: &str, found: &Found) -> io::Result<()> {
        let name = name.replace(char::is_control, " ");
        self.indented(&self.style.event(&format!("journal {name}")))?;
        for line in found.lines(self.style) {
            self.indented(&line)?;
        }
        writeln!(self.out)?;
        self.out.flush()
    }

    /// Whether there is a journal with a batch, so that no fresh group can be had.
    pub fn has_batches(&self) -> bool {
        self.host.has_batches()
    }

    /// Runs a step and prints it as it stands in its line.
    pub fn step(&mut self, line: &str, step: &Step) -> Result<(), Failure> {
        match step {
            Step::Fresh { tick } => self.fresh(*tick, line)?,
            Step::Event(event, lent) => self.event(event, *lent, line)?,
        }
        writeln!(self.out)?;
        Ok(self.out.flush()?)
    }

    fn fresh(&mut self, tick: u32, line: &str) -> Result<(), Failure> {
        self.heading("", line)?;
        let host = mem::replace(&mut self.host, Host::in_memory());
        self.host = host.fresh(tick).map_err(Failure::Journal)?;
        self.drawn = Picture::of(self.host.group());
        self.events = 0;
        Ok(())
    }

    fn event(&mut self, event: &Event, lent: Lent, line: &str) -> Result<(), Failure> {
        self.events += 1;
        self.heading(&self.events.to_string(), line)?;
        if let Event::InstallRange = event {
            self.range()?;
        }
        let outcome = self.host.run(event, lent).map_err(Failure::Journal)?;
        self.outcome(&outcome, event, lent)?;
        let picture = Picture::of(self.host.group());
        if picture != self.drawn {
            for line in picture.lines(&self.drawn, self.style) {
                self.indented(&line)?;
            }
            self.drawn = picture;
        }
        Ok(())
    }

    /// The event as written, and its comment below it.
    fn heading(&mut self, number: &str, line: &str) -> io::Result<()> {
        let (event, comment) = parts(line);
        let event: Vec<&str> = event.split_whitespace().collect();
        let event = self.style.event(&event.join(" "));
        writeln!(self.out, "{number:>2}  {event}")?;
        match comment {
            Some(comment) => {
                let comment = comment.replace(char::is_control, " ");
                self.indented(&self.style.comment(&format!("# {comment}")))
            }
            None => Ok(()),
        }
    }

    /// The install that the range assignor's comes to, as a script would have it.
    fn range(&mut self) -> io::Result<()> {
        let (epoch, entries) = range_install(self.host.group());
        let install = ["install".into(), format!("epoch {epoch}")];
        let words = install.into_iter().chain(target::words(&entries));
        self.labelled_lines("range", &wrap::lines(words, WIDTH))
    }

    fn outcome(&mut self, outcome: &Outcome, event: &Event, lent: Lent) -> io::Result<()> {
        let because = |refusal| why::why(refusal, event, lent, self.host.group());
        let words = answer::words(outcome.answer, because);
        match outcome.answer {
            Answer::Refused(_) => self.labelled("answer", &self.style.refusal(&words))?,
            _ => self.labelled("answer", &words)?,
        }
        if let Answer::Assignment { .. } = outcome.answer {
            self.labelled("slots", &slots::show(&outcome.slots))?;
        }
        self.labelled_lines("bytes", &hex::lines(&outcome.bytes))
    }

    /// With the label at the first of them.
    fn labelled_lines(&mut self, label: &str, lines: &[String]) -> io::Result<()> {
        let labels = [label].into_iter().chain(std::iter::repeat(""));
        for (label, line) in labels.zip(lines) {
            self.labelled(label, line)?;
        }
        Ok(())
    }

    fn labelled(&mut self, label: &str, text: &str) -> io::Result<()> {
        self.indented(&format!("{label:<6}  {text}"))
    }

    fn indented(&mut self, text: &str) -> io::Result<()> {
        writeln!(self.out, "    {text}")
    }
}
