//! How time is taken.
//!
//! What is compared takes turns: in each round every side runs for a batch, so
//! that what else the machine does affects all of them. Of the rounds the median
//! is taken, and the least is shown beside it.

use crate::clock;
use std::hint::black_box;

/// A way to make some calls: one turn makes all of them once. A turn is many
/// calls long, so that what it costs to go through this pointer does not show.
pub type Side<'a> = &'a mut dyn FnMut();

/// What one call takes, in nanoseconds: a figure for each round, of which there
/// is one at least.
pub struct Time {
    rounds: Vec<f64>,
}

/// How long is measured, and how often it was done.
pub struct Harness {
    rounds: usize,
    /// The least length of a batch, in nanoseconds.
    batch: u64,
    made: usize,
}

impl Harness {
    /// For figures that can be compared.
    pub fn thorough() -> Harness {
        Harness::new(5, 5_000_000)
    }

    /// One turn of each side, to see that all of them run.
    pub fn quick() -> Harness {
        Harness::new(1, 0)
    }

    fn new(rounds: usize, batch: u64) -> Harness {
        Harness {
            rounds,
            batch,
            made: 0,
        }
    }

    /// How many sides were measured.
    pub fn made(&self) -> usize {
        self.made
    }

    /// What a call takes on each side, where one turn makes so many calls.
    pub fn measure(&mut self, calls: usize, sides: &mut [Side]) -> Vec<Time> {
        let turns: Vec<u32> = sides.iter_mut().map(|side| self.turns(side)).collect();
        let mut rounds: Vec<Vec<f64>> = vec![Vec::new(); sides.len()];
        for _ in 0..self.rounds {
            for (place, side) in sides.iter_mut().enumerate() {
                let passed = time(side, turns[place]) as f64;
                rounds[place].push(passed / f64::from(turns[place]) / calls as f64);
            }
        }
        self.made += sides.len();
        rounds.into_iter().map(|rounds| Time { rounds }).collect()
    }

    /// How many turns of a side make a batch. Finding out warms up too: the
    /// side has run for a batch then.
    fn turns(&self, side: &mut Side) -> u32 {
        let mut turns = 1;
        while time(side, turns) < self.batch {
            turns *= 2;
        }
        turns
    }
}

/// Has the compiler take a result as used. It is told by its place: a value
/// would be copied, and a copy right behind the call that wrote it in smaller
/// parts has to wait for them, which is no part of the call.
pub fn used<T>(result: &T) {
    black_box(result);
}

/// What so many turns of a side take.
fn time(side: &mut Side, turns: u32) -> u64 {
    let begun = clock::now();
    for _ in 0..turns {
        side();
    }
    clock::now() - begun
}

impl Time {
    /// Takes in the rounds of another time of the same calls.
    pub fn add(&mut self, other: Time) {
        self.rounds.extend(other.rounds);
    }

    pub fn median(&self) -> f64 {
        let mut rounds = self.rounds.clone();
        rounds.sort_by(f64::total_cmp);
        rounds[rounds.len() / 2]
    }

    pub fn least(&self) -> f64 {
        self.rounds.iter().copied().fold(f64::INFINITY, f64::min)
    }
}
