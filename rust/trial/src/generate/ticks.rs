//! Ticks: the broker's clock, its edges, and sweeps about the moment when a member is due.

use super::profile::Pace;
use super::World;
use crate::coordinator::Coordinator;
use crate::data::Event;

const HALF: u32 = 1 << 31;

impl World {
    pub(super) fn tick<C: Coordinator>(&mut self, group: &C) -> u32 {
        let last = group.last_tick();
        let random = &mut self.random;
        let step = match self.profile.pace {
            Pace::Slow => random.pick(&[0, 0, 0, 1, 20]),
            Pace::Brisk => random.below(3_000),
            Pace::Wild => {
                let far = random.below(HALF as usize);
                random.pick(&[0, 0, 1, 300, 5_000, far / 20_000, far / 50_000])
            }
        };
        if !random.chance(self.profile.edges_per_1000, 1_000) {
            return last.wrapping_add(step as u32);
        }
        let back = random.between(1, 50_000) as u32;
        let any = random.next() as u32;
        let ahead = random.pick(&[HALF - 1, HALF, HALF + 1, back.wrapping_neg(), u32::MAX, any]);
        last.wrapping_add(ahead)
    }

    pub(super) fn sweep<C: Coordinator>(&mut self, group: &C) -> Event {
        let tick = self.tick(group);
        Event::Sweep {
            tick: self.due(group).unwrap_or(tick),
        }
    }

    /// At times the tick at which some member is due, or one beside it, unless that lies in the
    /// past. Sessions end less often, as all who are silent go with the one.
    fn due<C: Coordinator>(&mut self, group: &C) -> Option<u32> {
        let (_, member) = self.some_member(group)?;
        let (due, chance) = if member.revoking.is_empty() {
            (member.heard.wrapping_add(45_000), 10)
        } else {
            (member.revoked_at.wrapping_add(member.timeout), 2)
        };
        if !self.random.chance(1, chance) {
            return None;
        }
        let beside = self.random.pick(&[u32::MAX, u32::MAX, 0, 0, 1]);
        let tick = due.wrapping_add(beside);
        (tick.wrapping_sub(group.last_tick()) < HALF).then_some(tick)
    }
}
