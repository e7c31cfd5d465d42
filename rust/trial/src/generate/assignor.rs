//! Installs: good targets of several sorts, the range target among them, which leave no slot over, and
//! each way to spoil one.

use super::World;
use crate::coordinator::Coordinator;
use crate::data::{Event, Member, NO_PLACE, PARTITIONS, PLACES, SLOTS, TOPICS};

/// What an assignor sees: the slots there are and who may have them.
struct View {
    members: Vec<(u8, Member)>,
    /// Partitions of each topic.
    counts: [usize; TOPICS as usize],
}

#[derive(Clone, Copy)]
enum Strategy {
    /// By turns.
    Even,
    /// What the last target has, where it may stay.
    Sticky,
    Random,
    OneTakesAll,
    /// To half of the subscribers, by turns.
    Half,
}

const STRATEGIES: [Strategy; 8] = [
    Strategy::Even,
    Strategy::Even,
    Strategy::Sticky,
    Strategy::Sticky,
    Strategy::Random,
    Strategy::Random,
    Strategy::OneTakesAll,
    Strategy::Half,
];

impl View {
    fn of<C: Coordinator>(group: &C) -> View {
        let members = (0..PLACES)
            .filter_map(|place| Some((place, group.member_at(place)?)))
            .collect();
        let mut counts = [0; TOPICS as usize];
        for number in 0..TOPICS {
            let topic = group.topic_at(number);
            counts[usize::from(number)] = topic.map_or(0, |topic| topic.count.into());
        }
        View { members, counts }
    }

    fn subscribers(&self, topic: u8) -> Vec<u8> {
        let members = self.members.iter();
        let subscribed = members.filter(|(_, member)| member.subscribes_to(topic));
        subscribed.map(|(place, _)| *place).collect()
    }

    fn slots(&self, topic: u8) -> std::ops::Range<usize> {
        let first = usize::from(topic) * PARTITIONS;
        first..first + self.counts[usize::from(topic)]
    }

    /// The slots to whose topic somebody subscribes.
    fn wanted(&self) -> Vec<usize> {
        let topics = (0..TOPICS).filter(|&topic| !self.subscribers(topic).is_empty());
        topics.flat_map(|topic| self.slots(topic)).collect()
    }
}

impl World {
    pub(super) fn install<C: Coordinator>(&mut self, group: &C) -> Event {
        Event::Install {
            epoch: group.epoch(),
            entries: self.good_entries(group, &View::of(group)),
        }
    }

    fn good_entries<C: Coordinator>(&mut self, group: &C, view: &View) -> Vec<u8> {
        let mut entries = match self.random.chance(1, 9) {
            true => group.range_target().to_vec(),
            false => self.shared_out(group, view),
        };
        if self.leaves_slots {
            self.leave_some(&mut entries);
        }
        entries
    }

    fn shared_out<C: Coordinator>(&mut self, group: &C, view: &View) -> Vec<u8> {
        let strategy = self.random.pick(&STRATEGIES);
        let favourite = self.random.below(PLACES.into());
        let mut entries = vec![NO_PLACE; SLOTS];
        for topic in 0..TOPICS {
            let places = view.subscribers(topic);
            if places.is_empty() {
                continue;
            }
            for slot in view.slots(topic) {
                entries[slot] = match strategy {
                    Strategy::Even => places[slot % places.len()],
                    Strategy::Sticky => {
                        let stays = group.target_of(slot as u16);
                        let stays = stays.filter(|place| places.contains(place));
                        stays.unwrap_or_else(|| self.random.pick(&places))
                    }
                    Strategy::Random => self.random.pick(&places),
                    Strategy::OneTakesAll => places[favourite % places.len()],
                    Strategy::Half => {
                        let half = places.len().div_ceil(2);
                        places[(favourite + slot % half) % places.len()]
                    }
                };
            }
        }
        entries
    }

    /// None, some or all of the slots go to nobody, as was allowed before request 3.
    fn leave_some(&mut self, entries: &mut [u8]) {
        let share = self.random.pick(&[0, 0, 1, 2, 4]);
        for entry in entries {
            if self.random.chance(share, 4) {
                *entry = NO_PLACE;
            }
        }
    }

    pub(super) fn bad_install<C: Coordinator>(&mut self, group: &C) -> Event {
        let view = View::of(group);
        let mut entries = self.good_entries(group, &view);
        let mut epoch = group.epoch();
        // At times two faults at once.
        for _ in 0..self.random.between(1, 2) {
            match self.random.below(12) {
                0 => entries.resize(
                    self.random
                        .pick(&[0, 1, 1_023, 1_025, 2_048, 65_536 + 1_024]),
                    NO_PLACE,
                ),
                1 => epoch = self.other_epoch(group),
                2 | 3 => self.spoil_place(&view, &mut entries),
                4 | 5 => self.spoil_slot(&view, &mut entries),
                6 | 7 => self.spoil_subscription(&view, &mut entries),
                8 => entries = target_again(group),
                _ => self.forget(&view, &mut entries),
            }
        }
        Event::Install { epoch, entries }
    }

    fn other_epoch<C: Coordinator>(&mut self, group: &C) -> i32 {
        let epoch = group.epoch();
        let any = self.random.next() as i32;
        let others = [epoch.wrapping_sub(1), epoch.wrapping_add(1)];
        self.random
            .pick(&[others[0], others[1], group.target_epoch(), 0, -1, any])
    }

    /// A place above 31, or an empty one.
    fn spoil_place(&mut self, view: &View, entries: &mut [u8]) {
        let above = self.random.between(32, 254) as u8;
        let empty = (0..PLACES).find(|place| view.members.iter().all(|(at, _)| at != place));
        let place = self.random.pick(&[32, 254, above, empty.unwrap_or(33)]);
        let slot = self.random.below(SLOTS);
        self.put(entries, slot, place);
    }

    /// A slot that isn't there, often the first beyond its topic's last.
    fn spoil_slot(&mut self, view: &View, entries: &mut [u8]) {
        let topic = self.random.below(TOPICS.into()) as u8;
        let beyond = view.slots(topic).end;
        let last = usize::from(topic) * PARTITIONS + PARTITIONS - 1;
        let slot = self.random.pick(&[beyond, last]).min(SLOTS - 1);
        if !view.members.is_empty() {
            let at = self.random.below(view.members.len());
            self.put(entries, slot, view.members[at].0);
        }
    }

    /// A slot that is there, for a member that doesn't subscribe to its topic.
    fn spoil_subscription(&mut self, view: &View, entries: &mut [u8]) {
        let first = self.random.below(TOPICS.into()) as u8;
        for topic in (0..TOPICS).map(|step| (first + step) % TOPICS) {
            let mut others = view.members.iter();
            let other = others.find(|(_, member)| !member.subscribes_to(topic));
            let slots = view.slots(topic);
            if let (Some((place, _)), false) = (other, slots.is_empty()) {
                let slot = self.random.between(slots.start, slots.end - 1);
                return self.put(entries, slot, *place);
            }
        }
    }

    /// A slot that somebody subscribes to gets no owner, often the first or the last, or a whole topic
    /// is forgotten.
    fn forget(&mut self, view: &View, entries: &mut [u8]) {
        let wanted = view.wanted();
        let (Some(&first), Some(&last)) = (wanted.first(), wanted.last()) else {
            return;
        };
        let any = wanted[self.random.below(wanted.len())];
        let topic = (any / PARTITIONS) as u8;
        match self.random.below(6) {
            0 => self.put(entries, first, NO_PLACE),
            1 | 2 => self.put(entries, last, NO_PLACE),
            3 => view
                .slots(topic)
                .for_each(|slot| self.put(entries, slot, NO_PLACE)),
            _ => self.put(entries, any, NO_PLACE),
        }
    }

    /// The list may have been cut short by another fault.
    fn put(&mut self, entries: &mut [u8], slot: usize, place: u8) {
        if let Some(entry) = entries.get_mut(slot) {
            *entry = place;
        }
    }
}

/// The target as it stands, whatever has come in between.
fn target_again<C: Coordinator>(group: &C) -> Vec<u8> {
    let entry = |slot| group.target_of(slot).unwrap_or(NO_PLACE);
    (0..SLOTS as u16).map(entry).collect()
}
