//! Timing the sides of a scene for one round.

use std::hint::black_box;
use std::iter::Cycle;
use std::slice::Iter;
use std::time::{Duration, Instant};

use crate::coordinator::{Coordinator, Lent};
use crate::event::Event;
use crate::scene::Scene;

/// How long the sides work in a round, with the copying of groups.
const ROUND: Duration = Duration::from_millis(60);
/// Calls in a batch where one group serves them all,
const CALLS: usize = 256;
/// and where each has its own copy, few enough that they stay in the processor's caches.
const COPIES: usize = 8;

/// What can be timed.
pub trait Timed {
    /// A side of a round that begins.
    fn side(&self) -> Box<dyn Batches + '_>;
}

/// A scene in the course of a round.
pub trait Batches {
    /// The nanoseconds that a call of the next batch took.
    fn batch(&mut self, lent: &mut Lent) -> f64;
}

/// The sides take turns batch by batch, so that what else the machine does hits all. Of each side:
/// the median over its batches of the nanoseconds that a call took.
pub fn round<const N: usize>(scenes: [&dyn Timed; N], lent: &mut Lent) -> [f64; N] {
    let mut sides = scenes.map(Timed::side);
    let mut turns = Vec::new();
    let started = Instant::now();
    while turns.is_empty() || started.elapsed() < ROUND {
        turns.push(sides.each_mut().map(|side| side.batch(lent)));
    }
    medians(&turns)
}

struct Side<'a, C> {
    scene: &'a Scene<C>,
    group: C,
    events: Cycle<Iter<'a, Event>>,
}

impl<C: Coordinator> Timed for Scene<C> {
    fn side(&self) -> Box<dyn Batches + '_> {
        Box::new(Side {
            scene: self,
            group: self.group.clone(),
            events: self.events.iter().cycle(),
        })
    }
}

impl<C: Coordinator> Batches for Side<'_, C> {
    fn batch(&mut self, lent: &mut Lent) -> f64 {
        if self.scene.kind.spends_its_group() {
            self.batch_of_copies(lent)
        } else {
            self.batch_on_one(lent)
        }
    }
}

impl<C: Coordinator> Side<'_, C> {
    fn batch_on_one(&mut self, lent: &mut Lent) -> f64 {
        let started = Instant::now();
        for event in self.events.by_ref().take(CALLS) {
            black_box(self.group.play(black_box(event), lent));
        }
        each(started.elapsed(), CALLS)
    }

    fn batch_of_copies(&mut self, lent: &mut Lent) -> f64 {
        let mut copies = vec![self.group.clone(); COPIES];
        let started = Instant::now();
        for (copy, event) in copies.iter_mut().zip(&mut self.events) {
            black_box(copy.play(black_box(event), lent));
        }
        let elapsed = started.elapsed();
        black_box(copies);
        each(elapsed, COPIES)
    }
}

/// The nanoseconds of one call.
pub fn each(elapsed: Duration, calls: usize) -> f64 {
    elapsed.as_nanos() as f64 / calls as f64
}

/// Of the first numbers, of the second ones and so on. There is at least one row of them; of two in
/// the middle it is the upper one.
pub fn medians<const N: usize>(rows: &[[f64; N]]) -> [f64; N] {
    std::array::from_fn(|side| {
        let mut numbers: Vec<f64> = rows.iter().map(|row| row[side]).collect();
        numbers.sort_by(f64::total_cmp);
        numbers[numbers.len() / 2]
    })
}
