//! The broker: one store, events from standard input, answers to standard output.

use std::fs;
use std::io::{self, BufRead, Write};
use std::path::Path;

use pankvisolo::journal::Store;
use pankvisolo::{Answer, Heartbeat};

use super::wire::{self, Asked};
use crate::data::{Event, Reply};

/// Opens the journal at a tick, says so, and answers until the input ends. What it writes has left
/// the process when the call returns, so that an answer is out before the next event is served.
pub fn serve(journal: &Path, tick: u32) -> io::Result<()> {
    let mut store = Store::open(journal, tick)?;
    let mut out = io::stdout().lock();
    let end = fs::metadata(journal)?.len();
    out.write_all(wire::opened(end, store.group()).as_bytes())?;
    for line in io::stdin().lock().lines() {
        let line = line?;
        let asked = Asked::of(&line).ok_or_else(|| {
            let what = format!("no event: {line}");
            io::Error::new(io::ErrorKind::InvalidData, what)
        })?;
        let mut list = vec![0; asked.list];
        let answer = answer(&mut store, &asked.event, &mut list)?;
        let answer = Reply::from(pankvisolo::Reply { answer, written: 0 }).answer;
        let line = wire::answer(answer, &list[..answer.told()]);
        out.write_all(line.as_bytes())?;
        out.flush()?;
    }
    Ok(())
}

fn answer(store: &mut Store, event: &Event, list: &mut [u16]) -> io::Result<Answer> {
    match event {
        Event::Heartbeat(beat) => {
            let request = Heartbeat {
                id: beat.id,
                epoch: beat.epoch,
                tick: beat.tick,
                timeout: beat.timeout,
                subscription: beat.subscription,
                owned: beat.owned.as_deref(),
            };
            store.heartbeat(&request, list)
        }
        Event::Sweep { tick } => store.sweep(*tick),
        Event::Topic { number, id, count } => store.topic(*number, *id, *count),
        Event::Install { epoch, entries } => store.install(*epoch, entries),
    }
}
