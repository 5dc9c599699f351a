//! The time of a call or of a search, on each side.

use crate::cases::Work;
use crate::sides::{Side, SIDES};
use crate::tables::HEADER_BYTES;
use std::hint::black_box;
use std::time::{Duration, Instant};

/// How many batches each side makes if the work is quick, and if it is slow.
pub const MOST_BATCHES: usize = 30;
pub const FEWEST_BATCHES: usize = 3;

const WARM_UP_SECONDS: f64 = 0.5;

/// A batch takes about this long, which the clock can measure well, or the work is done only once.
const BATCH_SECONDS: f64 = 0.001;

/// All batches of a row together take about this long at most, unless there are only the fewest.
const ROW_SECONDS: f64 = 1.5;

/// The copies that a batch changes have at most this many bytes, so that they stay in the cache.
const MOST_COPIED: usize = 512 * 1024;

/// The best time of each side, in seconds.
#[derive(Clone, Copy)]
pub struct Times([f64; SIDES.len()]);

impl Times {
    pub const NONE_YET: Times = Times([f64::INFINITY; SIDES.len()]);

    pub fn of(&self, side: Side) -> f64 {
        self.0[side as usize]
    }

    pub fn add(&mut self, side: Side, time: f64) {
        let best = &mut self.0[side as usize];
        *best = best.min(time);
    }

    /// The library's time, with that of another side as 1.
    pub fn ratio_to(&self, side: Side) -> f64 {
        self.of(Side::Library) / self.of(side)
    }
}

/// Lets the processor reach its full speed before the first row.
pub fn warm_up(image: &[u8]) {
    let start = Instant::now();
    while start.elapsed().as_secs_f64() < WARM_UP_SECONDS {
        black_box(dacm::check(black_box(image)).is_ok());
    }
}

/// The time of the work, done once. The sides take turns, so that whatever else the machine does
/// slows all of them.
pub fn time_work(work: &Work, image: &[u8]) -> Times {
    let mut sides = SIDES.map(|side| Batches::new(side, work, image));
    let turn_seconds: f64 = sides.iter().map(Batches::batch_seconds).sum();
    let batches = ((ROW_SECONDS / turn_seconds) as usize).clamp(FEWEST_BATCHES, MOST_BATCHES);
    let mut best = Times::NONE_YET;
    for _ in 0..batches {
        for batches in &mut sides {
            best.add(batches.side, batches.batch());
        }
    }
    best
}

/// What one side does again and again, in batches.
struct Batches<'a> {
    side: Side,
    work: &'a Work,
    image: &'a [u8],
    /// What a batch works on: one copy of the image, or one for each round.
    copies: Vec<u8>,
    one_copy_each: bool,
    /// How often the work is done in a batch.
    rounds: usize,
    /// The time of one round, from a first measurement.
    estimate: f64,
}

impl<'a> Batches<'a> {
    fn new(side: Side, work: &'a Work, image: &'a [u8]) -> Batches<'a> {
        let mut batches = Batches {
            side,
            work,
            image,
            copies: image.to_vec(),
            one_copy_each: changes_a_count(side, work, image),
            rounds: 1,
            estimate: f64::INFINITY,
        };
        for _ in 0..3 {
            batches.estimate = batches.estimate.min(batches.batch());
        }
        let rounds = (BATCH_SECONDS / batches.estimate) as usize;
        batches.rounds = rounds.clamp(1, batches.most_rounds());
        batches
    }

    fn most_rounds(&self) -> usize {
        if self.one_copy_each {
            MOST_COPIED / self.image.len()
        } else {
            usize::MAX
        }
    }

    fn batch_seconds(&self) -> f64 {
        self.estimate * self.rounds as f64
    }

    /// The time of one round, from a batch of them.
    fn batch(&mut self) -> f64 {
        let taken = if self.one_copy_each {
            self.batch_on_fresh_copies()
        } else {
            self.batch_on_the_same_copy()
        };
        taken.as_secs_f64() / self.rounds as f64
    }

    fn batch_on_the_same_copy(&mut self) -> Duration {
        let start = Instant::now();
        for _ in 0..self.rounds {
            do_once(self.side, self.work, &mut self.copies);
        }
        start.elapsed()
    }

    /// The copying is not timed. It also brings the copies into the cache.
    fn batch_on_fresh_copies(&mut self) -> Duration {
        self.copies.clear();
        for _ in 0..self.rounds {
            self.copies.extend_from_slice(self.image);
        }
        let start = Instant::now();
        for copy in self.copies.chunks_exact_mut(self.image.len()) {
            do_once(self.side, self.work, copy);
        }
        start.elapsed()
    }
}

/// Does the work so that the compiler can neither foresee it nor leave it out. The outcome of a
/// call stays where it is: to move it would copy the entries for counts too, which most calls do
/// not need.
#[inline]
fn do_once(side: Side, work: &Work, image: &mut [u8]) {
    match black_box(work) {
        Work::Call(call) => {
            let outcome = side.make(call, black_box(image));
            black_box(&outcome);
        }
        Work::Search(search) => {
            black_box(search.answer(side, black_box(image)));
        }
    }
}

/// Is a row added or removed? To do the same again on the same copy would then be something else.
fn changes_a_count(side: Side, work: &Work, image: &[u8]) -> bool {
    match work {
        Work::Call(call) if !call.only_asks() => {
            let mut copy = image.to_vec();
            side.make(call, &mut copy);
            copy[..HEADER_BYTES] != image[..HEADER_BYTES]
        }
        _ => false,
    }
}
