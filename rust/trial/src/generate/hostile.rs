//! Heartbeats from hostile clients, and from such as don't follow the protocol: near misses of right
//! ones, mixed at random.

use super::{ids, World};
use crate::coordinator::Coordinator;
use crate::data::{Beat, Id, Member, SLOTS, ZERO_ID};

const TIMEOUTS: [i32; 10] = [
    -1,
    -1,
    -2,
    0,
    1,
    300,
    1_800_000,
    1_800_001,
    i32::MIN,
    i32::MAX,
];

impl World {
    pub(super) fn hostile<C: Coordinator>(&mut self, group: &C) -> Beat {
        let victim = self.some_member(group).map(|(_, member)| member);
        let id = self.some_id(victim.as_ref());
        let epoch = self.some_epoch(group, victim.as_ref());
        let owned = self.some_list(victim.as_ref());
        let is_fair = self.random.chance(2, 3);
        let (any_timeout, any_topics) = (self.random.pick(&TIMEOUTS), self.random.next() as u16);
        let random = &mut self.random;
        let mut beat = Beat {
            id,
            epoch,
            tick: 0,
            timeout: if is_fair { -1 } else { any_timeout },
            subscription: random.chance(1, 3).then_some(any_topics),
            owned,
        };
        // A join that lacks at most one thing, so that it gets past the first row at times.
        if epoch == 0 && random.chance(4, 5) {
            beat.timeout = 300;
            beat.subscription = Some(any_topics);
            beat.owned = Some(Vec::new());
            match random.below(8) {
                0 => beat.timeout = -1,
                1 => beat.subscription = None,
                2 => beat.owned = None,
                3 => beat.owned = Some(vec![any_topics % SLOTS as u16]),
                4 => beat.timeout = any_timeout,
                _ => {}
            }
        }
        beat.tick = self.tick(group);
        beat
    }

    fn some_id(&mut self, victim: Option<&Member>) -> Id {
        let client = self.random.below(self.clients.len());
        let client = self.clients[client].id();
        match self.random.below(10) {
            0 => ZERO_ID,
            1 => ids::new(&mut self.random),
            2 => client,
            3 => {
                let mut close = victim.map_or(client, |member| member.id);
                close[self.random.below(16)] ^= 1;
                close
            }
            _ => victim.map_or(client, |member| member.id),
        }
    }

    fn some_epoch<C: Coordinator>(&mut self, group: &C, victim: Option<&Member>) -> i32 {
        let own = victim.map_or(1, |member| member.epoch);
        let any = self.random.next() as i32;
        match self.random.below(20) {
            0 => -1,
            1..=3 => 0,
            4 => self.random.pick(&[-2, -3, i32::MIN]),
            5 => own.wrapping_sub(1),
            6 => own.wrapping_add(1),
            7 => self.random.pick(&[group.epoch(), group.target_epoch()]),
            8 => self.random.pick(&[i32::MAX, any]),
            _ => own,
        }
    }

    fn some_list(&mut self, victim: Option<&Member>) -> Option<Vec<u16>> {
        let mut list = victim.map(Member::held).unwrap_or_default();
        let random = &mut self.random;
        match random.below(14) {
            0 | 1 => return None,
            2 => list.clear(),
            3 => list = victim.map(|member| member.assigned.clone())?,
            4 => list = victim.map(|member| member.revoking.clone())?,
            5..=7 => list.retain(|_| random.chance(2, 3)),
            8 => {
                list.push(random.below(SLOTS) as u16);
                list.sort_unstable();
                list.dedup();
            }
            9 => {
                let last = list.last().copied().unwrap_or(7);
                list.push(last.saturating_sub(random.below(2) as u16));
            }
            10 => list.push(random.pick(&[1_024, 1_025, 65_535])),
            11 => {
                let length = random.pick(&[1_023, 1_024, 1_025, 1_100]);
                list = (0..length).collect();
            }
            12 => {
                list = (0..random.below(6))
                    .map(|_| random.next() as u16 % 1_030)
                    .collect()
            }
            _ => {}
        }
        Some(list)
    }
}
