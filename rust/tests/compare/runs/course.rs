//! Where runs begin: a made-up course of calls that fills and empties a room.

use super::both::Both;
use super::history::History;
use reference::call::Call;
use reference::generate::Generator as Histories;
use reference::room::{Room, BASE};

/// How much of a room is taken.
#[derive(Debug, Clone, Copy, PartialEq, Eq)]
pub enum Fill {
    Empty,
    Thin,
    Full,
}

pub const FILLS: [Fill; 3] = [Fill::Empty, Fill::Thin, Fill::Full];

/// No course takes as many calls to come to a thin or to a full room.
const MOST_CALLS: usize = 50_000;

impl Fill {
    fn is_of(self, room: &Room) -> bool {
        let taken = room.seats.iter().flatten().count();
        match self {
            Fill::Empty => taken == 0,
            Fill::Thin => (1..=4).contains(&taken),
            Fill::Full => taken == BASE.seats,
        }
    }
}

/// A course of calls, and the room that the calls made so far led to.
pub struct Course {
    seed: u64,
    fill: Fill,
    calls: Histories,
    /// How many calls were taken from it.
    taken: usize,
    pub both: Both,
}

impl Course {
    /// The course of this seed, up to the first room so full.
    pub fn to(fill: Fill, seed: u64) -> Course {
        let mut course = Course {
            seed,
            fill,
            calls: Histories::new(seed, BASE),
            taken: 0,
            both: Both::empty(seed as u8),
        };
        course.go_on();
        course
    }

    /// Makes calls, one by one, up to the next room so full.
    pub fn go_on(&mut self) {
        for _ in 0..MOST_CALLS {
            if self.fill.is_of(&self.both.room) {
                return;
            }
            for call in self.take(1) {
                self.both.make(&call);
            }
        }
        panic!("course {} came to no {:?} room", self.seed, self.fill);
    }

    /// The next calls. They are not made: a run is to play them.
    pub fn next(&mut self, count: usize) -> History {
        let (seed, taken) = (self.seed, self.taken);
        let name = format!("{count} calls, from call {taken} of course {seed} on");
        History::new(name, self.take(count), &self.both.room)
    }

    fn take(&mut self, count: usize) -> Vec<Call> {
        self.taken += count;
        self.calls.by_ref().take(count).collect()
    }
}
