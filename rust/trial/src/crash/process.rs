//! A broker's process, as its clients have it.

use std::io::{BufRead, BufReader, Write};
use std::path::Path;
use std::process::{Child, ChildStdin, ChildStdout, Command, Stdio};
use std::thread;
use std::time::{Duration, Instant};

use super::wire::Asked;
use super::Place;

pub struct Broker {
    child: Child,
    /// Taken when it is killed.
    asks: Option<ChildStdin>,
    answers: BufReader<ChildStdout>,
}

/// A sleep is no finer than this.
const FINE: Duration = Duration::from_micros(300);

impl Broker {
    pub fn start(place: &Place, journal: &Path, tick: u32) -> Result<Broker, String> {
        let mut child = Command::new(&place.program)
            .args(&place.arguments)
            .arg(journal)
            .arg(tick.to_string())
            .stdin(Stdio::piped())
            .stdout(Stdio::piped())
            .spawn()
            .map_err(|error| format!("{}: {error}", place.program.display()))?;
        let (asks, answers) = (child.stdin.take(), child.stdout.take());
        Ok(Broker {
            child,
            asks,
            answers: BufReader::new(answers.ok_or("the broker has no output")?),
        })
    }

    pub fn ask(&mut self, asked: &Asked) -> Result<(), String> {
        let pipe = self.asks.as_mut().ok_or("the broker was killed")?;
        pipe.write_all(asked.line().as_bytes())
            .map_err(|error| format!("the broker takes no event: {error}"))
    }

    /// The next line of a broker that lives.
    pub fn line(&mut self) -> Result<String, String> {
        let line = self.next()?;
        line.ok_or_else(|| "the broker stopped before it was killed".into())
    }

    /// None: there is no other whole one. Where the process was killed in the midst of a line, nobody
    /// was told.
    fn next(&mut self) -> Result<Option<String>, String> {
        let mut line = Vec::new();
        let read = self.answers.read_until(b'\n', &mut line);
        read.map_err(|error| format!("the broker's answers: {error}"))?;
        Ok((line.last() == Some(&b'\n')).then(|| String::from_utf8_lossy(&line).into_owned()))
    }

    /// Kills it after so long; what it still said before.
    pub fn kill(mut self, after: Duration) -> Result<Vec<String>, String> {
        let begun = Instant::now();
        if after > FINE {
            thread::sleep(after - FINE);
        }
        while begun.elapsed() < after {}
        self.stop()?;
        let mut lines = Vec::new();
        while let Some(line) = self.next()? {
            lines.push(line);
        }
        Ok(lines)
    }

    /// Ends with its input.
    pub fn end(mut self) -> Result<(), String> {
        self.asks = None;
        match self.child.wait() {
            Ok(status) if status.success() => Ok(()),
            Ok(status) => Err(format!("the broker ended with {status}")),
            Err(error) => Err(format!("the broker cannot be waited for: {error}")),
        }
    }

    fn stop(&mut self) -> Result<(), String> {
        let killed = self.child.kill().and_then(|()| self.child.wait());
        killed.map_err(|error| format!("the broker cannot be killed: {error}"))?;
        self.asks = None;
        Ok(())
    }
}

/// After a failure no broker is left behind.
impl Drop for Broker {
    fn drop(&mut self) {
        // It is killed and waited for already, but for a failure.
        let _ = self.stop();
    }
}
