//! One line of a script: a fresh group, or an event with what is lent to it.

use crate::coordinator::Id;
use crate::event::{Beat, Event, Lent, Tick};
use crate::fields::{Fields, Form};
use crate::group::{NO_PLACE, SLOTS, TOPICS};
use crate::words::{self, Fault, Word};
use crate::{id, slots};

#[derive(Clone, PartialEq, Eq, Debug)]
pub enum Step {
    Fresh { tick: u32 },
    Event(Event, Lent),
}

const FRESH: Form = Form {
    name: "fresh",
    usage: "fresh [tick MS]",
    keywords: &["tick"],
};
const TOPIC: Form = Form {
    name: "topic",
    usage: "topic NUMBER id ID count COUNT [room BYTES]",
    keywords: &["id", "count", "room"],
};
const JOIN: Form = Form {
    name: "join",
    usage: "join ID timeout MS topics NUMBERS [tick TICK] [room BYTES] [entries N]",
    keywords: &["timeout", "topics", "tick", "room", "entries"],
};
const BEAT: Form = Form {
    name: "beat",
    usage: "beat ID epoch EPOCH [tick TICK] [list SLOTS] [timeout MS] [topics NUMBERS] \
            [room BYTES] [entries N]",
    keywords: &[
        "epoch", "tick", "list", "timeout", "topics", "room", "entries",
    ],
};
const LEAVE: Form = Form {
    name: "leave",
    usage: "leave ID [tick TICK] [room BYTES]",
    keywords: &["tick", "room"],
};
const SWEEP: Form = Form {
    name: "sweep",
    usage: "sweep [tick TICK] [room BYTES]",
    keywords: &["tick", "room"],
};
const INSTALL: Form = Form {
    name: "install",
    usage: "install epoch EPOCH [SLOTS to PLACE]... [length N] [room BYTES], or install range",
    keywords: &["epoch", "length", "room"],
};
const INSTALL_RANGE: Form = Form {
    name: "install range",
    usage: "install range, with nothing after it",
    keywords: &[],
};

const EVENTS: &str = "fresh, topic, join, beat, leave, sweep or install";

/// The words after an event's name, and where the event ends in its line.
#[derive(Clone, Copy)]
struct Tail<'w, 'a> {
    words: &'w [Word<'a>],
    end: usize,
}

/// None where the line is blank or a comment.
pub fn read(line: &str) -> Result<Option<Step>, Fault> {
    let (event, _) = words::parts(line);
    let words = words::words(event);
    let Some((name, words)) = words.split_first() else {
        return Ok(None);
    };
    let end = event.trim_end().len();
    let tail = Tail { words, end };
    let (event, lent) = match name.text {
        "fresh" => return Ok(Some(fresh(tail)?)),
        "topic" => topic(tail)?,
        "join" => join(tail)?,
        "beat" => beat(tail)?,
        "leave" => leave(tail)?,
        "sweep" => sweep(tail)?,
        "install" => install(tail)?,
        unknown => return Err(name.fault(format!("there is no event '{unknown}'"), EVENTS)),
    };
    Ok(Some(Step::Event(event, lent)))
}

fn fresh(tail: Tail) -> Result<Step, Fault> {
    let fields = tail.fields(&FRESH)?;
    let tick = match fields.one("tick")? {
        None => 0,
        Some(word) => word.number(0..=u32::MAX)?,
    };
    Ok(Step::Fresh { tick })
}

fn topic(tail: Tail) -> Result<(Event, Lent), Fault> {
    let (number, fields) = tail.subject_and_fields(&TOPIC, "number")?;
    let topic = Event::Topic {
        number: number.number(0..=u32::MAX)?,
        id: id::read(fields.needed("id")?)?,
        count: fields.needed("count")?.number(0..=u32::MAX)?,
    };
    Ok((topic, lent(&fields)?))
}

/// Epoch 0 and an empty list.
fn join(tail: Tail) -> Result<(Event, Lent), Fault> {
    let (id, fields) = member(tail, &JOIN)?;
    fields.needed("timeout")?;
    fields.needed("topics")?;
    let event = heartbeat(id, 0, Some(Vec::new()), &fields)?;
    Ok((event, lent(&fields)?))
}

fn beat(tail: Tail) -> Result<(Event, Lent), Fault> {
    let (id, fields) = member(tail, &BEAT)?;
    let epoch = fields.needed("epoch")?.number(i32::MIN..=i32::MAX)?;
    let owned = fields.many("list")?.map(slots::read_or_none).transpose()?;
    let event = heartbeat(id, epoch, owned, &fields)?;
    Ok((event, lent(&fields)?))
}

/// Epoch -1.
fn leave(tail: Tail) -> Result<(Event, Lent), Fault> {
    let (id, fields) = member(tail, &LEAVE)?;
    let event = heartbeat(id, -1, None, &fields)?;
    Ok((event, lent(&fields)?))
}

fn sweep(tail: Tail) -> Result<(Event, Lent), Fault> {
    let fields = tail.fields(&SWEEP)?;
    let event = Event::Sweep {
        tick: tick(&fields)?,
    };
    Ok((event, lent(&fields)?))
}

fn install(tail: Tail) -> Result<(Event, Lent), Fault> {
    let end = tail.end;
    match tail.words.split_first() {
        Some((first, words)) if first.text == "range" => {
            Tail { words, end }.fields(&INSTALL_RANGE)?;
            Ok((Event::InstallRange, Lent::ENOUGH))
        }
        _ => install_entries(tail),
    }
}

fn install_entries(tail: Tail) -> Result<(Event, Lent), Fault> {
    let fields = Fields::read(&INSTALL, tail.words, tail.end)?;
    let mut entries = entries(&fields.rest)?;
    entries.resize(fields.size("length", SLOTS.into())?, NO_PLACE);
    let event = Event::Install {
        epoch: fields.needed("epoch")?.number(i32::MIN..=i32::MAX)?,
        entries,
    };
    Ok((event, lent(&fields)?))
}

fn member<'a>(tail: Tail<'_, 'a>, form: &'static Form) -> Result<(Id, Fields<'a>), Fault> {
    let (word, fields) = tail.subject_and_fields(form, "ID")?;
    Ok((id::read(word)?, fields))
}

fn heartbeat(id: Id, epoch: i32, owned: Option<Vec<u16>>, fields: &Fields) -> Result<Event, Fault> {
    let timeout = match fields.one("timeout")? {
        None => -1,
        Some(word) => word.number(i32::MIN..=i32::MAX)?,
    };
    Ok(Event::Heartbeat(Beat {
        id,
        epoch,
        tick: tick(fields)?,
        timeout,
        subscription: fields.many("topics")?.map(subscription).transpose()?,
        owned,
    }))
}

/// `2000`, or `+2000` for so many ms after the group's last tick, which is also the tick if none is
/// given.
fn tick(fields: &Fields) -> Result<Tick, Fault> {
    let Some(word) = fields.one("tick")? else {
        return Ok(Tick::Last);
    };
    Ok(match word.without("+") {
        Some(elapsed) => Tick::After(elapsed.number(0..=u32::MAX)?),
        None => Tick::At(word.number(0..=u32::MAX)?),
    })
}

/// Topic t is 2^t; `none` is the empty set.
fn subscription(words: &[Word]) -> Result<u16, Fault> {
    if let [word] = words {
        if word.text == slots::NONE {
            return Ok(0);
        }
    }
    let mut set = 0;
    for word in words {
        for topic in slots::read_ranges(*word, u16::from(TOPICS) - 1)? {
            set |= 1 << topic;
        }
    }
    Ok(set)
}

/// The list that `0-1 to p0 2 to p1` stands for; slots not named have no place.
fn entries(words: &[Word]) -> Result<Vec<u8>, Fault> {
    let mut entries = vec![NO_PLACE; SLOTS.into()];
    let mut words = words.iter();
    let mut unplaced = Vec::new();
    while let Some(word) = words.next() {
        if word.text != "to" {
            unplaced.push(*word);
            continue;
        }
        let place = match words.next() {
            Some(place) => read_place(*place)?,
            None => return Err(word.fault("'to' has no place after it", "a place such as p0")),
        };
        if unplaced.is_empty() {
            return Err(word.fault("'to' has no slots before it", "slots such as 0-2 or t1:0-2"));
        }
        for word in unplaced.drain(..) {
            fill(&mut entries, word, place)?;
        }
    }
    match unplaced.first() {
        None => Ok(entries),
        Some(word) => {
            let wrong = format!("'{}' goes to no place", word.text);
            Err(word.fault(wrong, INSTALL.usage))
        }
    }
}

fn fill(entries: &mut [u8], word: Word, place: u8) -> Result<(), Fault> {
    for slot in slots::read(&[word])? {
        match entries.get_mut(usize::from(slot)) {
            Some(entry) if *entry == NO_PLACE => *entry = place,
            Some(_) => {
                let wrong = format!("slot {slot} goes to two places");
                return Err(word.fault(wrong, "each slot once"));
            }
            None => {
                let wrong = format!("there is no slot {slot}");
                return Err(word.fault(wrong, "slots from 0 to 1023"));
            }
        }
    }
    Ok(())
}

/// `p0` to `p254`; those above 31 are for trying.
fn read_place(word: Word) -> Result<u8, Fault> {
    match word.without("p") {
        Some(number) => number.number(0..=NO_PLACE - 1),
        None => Err(word.fault(format!("'{}' is no place", word.text), "a place such as p0")),
    }
}

fn lent(fields: &Fields) -> Result<Lent, Fault> {
    let Lent { bytes, entries } = Lent::ENOUGH;
    Ok(Lent {
        bytes: fields.size("room", bytes)?,
        entries: fields.size("entries", entries)?,
    })
}

impl<'a> Tail<'_, 'a> {
    fn fields(self, form: &'static Form) -> Result<Fields<'a>, Fault> {
        let fields = Fields::read(form, self.words, self.end)?;
        fields.no_rest()?;
        Ok(fields)
    }

    fn subject_and_fields(
        self,
        form: &'static Form,
        what: &str,
    ) -> Result<(Word<'a>, Fields<'a>), Fault> {
        let end = self.end;
        let (subject, words) = form.subject(self.words, end, what)?;
        Ok((subject, Tail { words, end }.fields(form)?))
    }
}

#[cfg(test)]
mod tests;
