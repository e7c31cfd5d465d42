use super::*;

fn step(line: &str) -> Step {
    read(line).unwrap().unwrap()
}

fn event(line: &str) -> Event {
    match step(line) {
        Step::Event(event, Lent::ENOUGH) => event,
        other => panic!("{other:?}"),
    }
}

fn lent(line: &str) -> (usize, usize) {
    match step(line) {
        Step::Event(_, lent) => (lent.bytes, lent.entries),
        other => panic!("{other:?}"),
    }
}

/// What is wrong, what was expected, and the part of the line that it concerns.
fn fault(line: &str) -> (String, String, &str) {
    let fault = read(line).unwrap_err();
    let word = &line[fault.at..fault.at + fault.length];
    (fault.wrong, fault.expected, word)
}

fn is_fault(line: &str, word: &str, wrong: &str, expected: &str) {
    assert_eq!(fault(line), (wrong.into(), expected.into(), word), "{line}");
}

fn beat_of(line: &str) -> Beat {
    match event(line) {
        Event::Heartbeat(beat) => beat,
        other => panic!("{other:?}"),
    }
}

#[test]
fn blank_lines_and_comments_are_no_step() {
    for line in ["", "   ", "\t\r", "# join", "  # join"] {
        assert_eq!(read(line), Ok(None));
    }
}

#[test]
fn a_fresh_group() {
    assert_eq!(step("fresh"), Step::Fresh { tick: 0 });
    assert_eq!(step("fresh tick 1000 # c"), Step::Fresh { tick: 1000 });
}

#[test]
fn a_topic() {
    let topic = Event::Topic {
        number: 0,
        id: [0x11; 16],
        count: 3,
    };
    assert_eq!(event("topic 0 id 11 count 3"), topic);
    assert_eq!(event("topic 0 count 3 id 11"), topic);
    assert_eq!(lent("topic 0 id 11 count 3 room 18"), (18, 1024));
}

#[test]
fn a_join_is_at_epoch_0_with_an_empty_list() {
    let join = Beat {
        id: [0xAA; 16],
        epoch: 0,
        tick: Tick::At(1000),
        timeout: 300,
        subscription: Some(0b1101),
        owned: Some(vec![]),
    };
    let line = "join AA tick 1000 timeout 300 topics 0 2-3";
    assert_eq!(beat_of(line), join);
    let line = "join AA topics 0,2 3 timeout 300 tick 1000";
    assert_eq!(beat_of(line), join);
    let line = "join AA timeout 1 topics none room 28 entries 0";
    assert_eq!(lent(line), (28, 0));
}

#[test]
fn a_beat_has_what_it_is_given() {
    let bare = Beat {
        id: [0xAA; 16],
        epoch: 1,
        tick: Tick::Last,
        timeout: -1,
        subscription: None,
        owned: None,
    };
    assert_eq!(beat_of("beat AA epoch 1"), bare);
    assert_eq!(beat_of("beat AA epoch 1 list none").owned, Some(vec![]));
    let full = beat_of("beat AA list 0-2 t1:0 epoch -7 topics none timeout 0 tick +5");
    assert_eq!(full.owned, Some(vec![0, 1, 2, 64]));
    assert_eq!((full.epoch, full.timeout), (-7, 0));
    assert_eq!((full.tick, full.subscription), (Tick::After(5), Some(0)));
    assert_eq!(lent("beat AA epoch 1 entries 2"), (4096, 2));
}

#[test]
fn a_leave_is_at_epoch_minus_1() {
    let leave = beat_of("leave worker-1 tick 9");
    assert_eq!(leave.id, *b"worker-1\0\0\0\0\0\0\0\0");
    assert_eq!((leave.epoch, leave.tick), (-1, Tick::At(9)));
    assert_eq!((leave.timeout, leave.owned), (-1, None));
    assert_eq!(lent("leave AA room 0"), (0, 1024));
}

#[test]
fn a_sweep() {
    assert_eq!(event("sweep"), Event::Sweep { tick: Tick::Last });
    let tick = Tick::After(45_000);
    assert_eq!(event("sweep tick +45000"), Event::Sweep { tick });
    assert_eq!(lent("sweep room 7"), (7, 1024));
}

#[test]
fn an_install_gives_slots_to_places() {
    let Event::Install { epoch, entries } = event("install epoch 2 0-1 5 to p0 t1:0 to p31") else {
        panic!();
    };
    assert_eq!((epoch, entries.len()), (2, 1024));
    assert_eq!(entries[..6], [0, 0, 255, 255, 255, 0]);
    assert_eq!(entries[64], 31);
    assert_eq!(entries.iter().filter(|&&entry| entry != 255).count(), 4);
}

#[test]
fn an_install_may_have_another_length_and_no_slots() {
    let Event::Install { entries, .. } = event("install length 2 epoch 0 0-5 to p1") else {
        panic!();
    };
    assert_eq!(entries, [1, 1]);
    let Event::Install { entries, .. } = event("install epoch 0") else {
        panic!();
    };
    assert_eq!(entries, [255; 1024]);
    assert_eq!(lent("install 3 to p0 epoch 1 room 4"), (4, 1024));
}

#[test]
fn an_install_of_the_range() {
    assert_eq!(event("install range"), Event::InstallRange);
    assert_eq!(event("  install  range # c"), Event::InstallRange);
    for word in ["room", "epoch", "length", "to", "range", "t0:0"] {
        let line = format!("install range {word} 5");
        let wrong = format!("'{word}' is no part of install range");
        is_fault(&line, word, &wrong, INSTALL_RANGE.usage);
        assert_eq!(read(&line).unwrap_err().at, 14);
    }
    let wrong = "'range' goes to no place";
    is_fault("install epoch 1 range", "range", wrong, INSTALL.usage);
    let wrong = "install has no 'epoch'";
    is_fault("install", "", wrong, INSTALL.usage);
}

#[test]
fn an_unknown_event() {
    is_fault("  jion AA", "jion", "there is no event 'jion'", EVENTS);
    is_fault("Join AA", "Join", "there is no event 'Join'", EVENTS);
}

#[test]
fn what_is_missing_is_named() {
    for (line, wrong, form) in [
        ("join", "join has no ID", JOIN),
        ("join tick 1", "join has no ID", JOIN),
        ("join AA topics 0", "join has no 'timeout'", JOIN),
        ("join AA timeout 300", "join has no 'topics'", JOIN),
        ("beat AA", "beat has no 'epoch'", BEAT),
        ("leave", "leave has no ID", LEAVE),
        ("topic", "topic has no number", TOPIC),
        ("topic 0 count 3", "topic has no 'id'", TOPIC),
        ("topic 0 id 11", "topic has no 'count'", TOPIC),
        ("install 0 to p0", "install has no 'epoch'", INSTALL),
    ] {
        is_fault(line, "", wrong, form.usage);
        assert_eq!(read(line).unwrap_err().at, line.len());
    }
}

#[test]
fn a_missing_value_is_marked_at_its_keyword() {
    let wrong = "'tick' has no value";
    is_fault(
        "join AA tick timeout 300 topics 0",
        "tick",
        wrong,
        JOIN.usage,
    );
    is_fault("sweep tick", "tick", wrong, SWEEP.usage);
    let wrong = "'list' has no value";
    is_fault("beat AA epoch 1 list # none", "list", wrong, BEAT.usage);
}

#[test]
fn a_word_too_many() {
    is_fault(
        "fresh 1000",
        "1000",
        "'1000' is no part of fresh",
        FRESH.usage,
    );
    is_fault(
        "sweep tick 5 6",
        "6",
        "'6' is no part of sweep",
        SWEEP.usage,
    );
    let wrong = "'timeout' is no part of leave";
    is_fault("leave AA timeout 300", "timeout", wrong, LEAVE.usage);
    let wrong = "'list' is no part of join";
    is_fault("join AA list none timeout 300", "list", wrong, JOIN.usage);
    let wrong = "'tick' stands twice";
    let line = "beat AA tick 1 epoch 1 tick 2";
    is_fault(line, "tick", wrong, BEAT.usage);
    assert_eq!(read(line).unwrap_err().at, 23);
}

#[test]
fn values_that_are_none() {
    let ticks = "a whole number from 0 to 4294967295";
    let signed = "a whole number from -2147483648 to 2147483647";
    is_fault("sweep tick soon", "soon", "'soon' is not a number", ticks);
    is_fault("sweep tick +x", "x", "'x' is not a number", ticks);
    is_fault("fresh tick -1", "-1", "-1 is out of bounds", ticks);
    let big = "4294967296 is out of bounds";
    is_fault("sweep tick 4294967296", "4294967296", big, ticks);
    is_fault("beat AA epoch e", "e", "'e' is not a number", signed);
    let wrong = "2147483648 is out of bounds";
    is_fault("install epoch 2147483648", "2147483648", wrong, signed);
    is_fault("topic x id 11 count 3", "x", "'x' is not a number", ticks);
    let wrong = "'3x0' is not a number";
    is_fault("beat AA epoch 1 timeout 3x0", "3x0", wrong, signed);
    let sizes = "a whole number from 0 to 65535";
    is_fault("sweep room all", "all", "'all' is not a number", sizes);
    let topics = "a whole number from 0 to 15";
    let line = "join AA timeout 300 topics 0 16";
    is_fault(line, "16", "16 is out of bounds", topics);
}

#[test]
fn an_id_that_is_none() {
    let (wrong, expected, word) = fault("leave a/b tick 1");
    assert_eq!((wrong.as_str(), word), ("'a/b' is no ID", "a/b"));
    assert!(expected.starts_with("two hex digits"));
}

#[test]
fn an_install_that_is_none() {
    let place = "a place such as p0";
    let wrong = "'to' has no place after it";
    is_fault("install epoch 1 0 to", "to", wrong, place);
    is_fault("install epoch 1 0 to 5", "5", "'5' is no place", place);
    let places = "a whole number from 0 to 254";
    is_fault(
        "install epoch 1 0 to p255",
        "255",
        "255 is out of bounds",
        places,
    );
    let slots = "slots such as 0-2 or t1:0-2";
    let wrong = "'to' has no slots before it";
    is_fault("install epoch 1 to p0", "to", wrong, slots);
    let wrong = "'0-2' goes to no place";
    is_fault("install epoch 1 0-2 p0", "0-2", wrong, INSTALL.usage);
    let wrong = "slot 1 goes to two places";
    is_fault(
        "install epoch 1 0-1 to p0 t0:1 to p1",
        "t0:1",
        wrong,
        "each slot once",
    );
    let wrong = "there is no slot 1024";
    is_fault(
        "install epoch 1 1024 to p0",
        "1024",
        wrong,
        "slots from 0 to 1023",
    );
}
