//! A target in text, as an install of a script has it: `t0:0-1 to p0 t0:2 to p1`.

use crate::group::NO_PLACE;
use crate::slots;

/// The words, by place; slots that go to nobody are not named.
pub fn words(entries: &[u8]) -> Vec<String> {
    let places = 0..NO_PLACE;
    places
        .flat_map(|place| words_to(&slots_to(entries, place), place))
        .collect()
}

fn slots_to(entries: &[u8], place: u8) -> Vec<u16> {
    let slots = (0..).zip(entries);
    let given = slots.filter(|(_, entry)| **entry == place);
    given.map(|(slot, _)| slot).collect()
}

fn words_to(list: &[u16], place: u8) -> Vec<String> {
    if list.is_empty() {
        return Vec::new();
    }
    let shown = slots::show(list);
    let topics = shown.split(' ').map(String::from);
    topics.chain([format!("to p{place}")]).collect()
}

#[cfg(test)]
mod tests {
    use super::*;
    use crate::event::Event;
    use crate::group::SLOTS;
    use crate::line::{read, Step};

    fn entries(text: &str) -> Vec<u8> {
        match read(&format!("install epoch 1 {text}")) {
            Ok(Some(Step::Event(Event::Install { entries, .. }, _))) => entries,
            other => panic!("{other:?}"),
        }
    }

    #[test]
    fn slots_are_shown_by_place() {
        assert_eq!(words(&[NO_PLACE; SLOTS as usize]), [""; 0]);
        assert_eq!(words(&[0, 0, 1]), ["t0:0-1", "to p0", "t0:2", "to p1"]);
        let text = "t1:0 t15:63 to p254 5 to p31 t0:0-2,4 t1:1 to p2";
        let shown = "t0:0-2,4 t1:1 to p2 t0:5 to p31 t1:0 t15:63 to p254";
        assert_eq!(words(&entries(text)).join(" "), shown);
    }

    #[test]
    fn what_is_shown_is_read_back() {
        for text in [
            "",
            "0-2 to p0",
            "0-62 to p3 t0:63 t7:1,3 to p9 t15:63 to p0",
        ] {
            let target = entries(text);
            assert_eq!(entries(&words(&target).join(" ")), target, "{text}");
        }
    }
}
