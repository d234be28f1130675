//! Counts of what calls of the reader met.

use crate::tally::say;

/// What a call came to.
#[derive(Clone, Copy)]
pub enum Case {
    InPiece,
    InKeep,
    More,
    /// 18 for a length that stands in one piece.
    BadLength,
    /// 18 for a length whose first byte came in an earlier piece.
    BadLengthCut,
    /// 18 for bytes held that start no unfinished frame.
    BadState,
    /// 18 for a reader that was refused with 18 before.
    Again,
    ShortKeep,
}

const NAMES: [&str; 8] = [
    "frame in the piece",
    "frame in the keep",
    "more",
    "18 by a length in one piece",
    "18 by a length cut between pieces",
    "18 by the state",
    "18 again",
    "10",
];

/// How often each case was met, and how often a stream was read.
pub struct Counts {
    met: [u64; NAMES.len()],
    streams: u64,
}

impl Counts {
    pub fn new() -> Counts {
        Counts {
            met: [0; NAMES.len()],
            streams: 0,
        }
    }

    pub fn add(&mut self, case: Case) {
        self.met[case as usize] += 1;
    }

    /// A stream was read to its end, or to its first bad length.
    pub fn add_stream(&mut self) {
        self.streams += 1;
    }

    fn calls(&self) -> u64 {
        self.met.iter().sum()
    }

    pub fn say(&self) {
        let mut text = format!(
            "frames: {} calls, streams read {} times",
            self.calls(),
            self.streams
        );
        for (name, count) in NAMES.iter().zip(self.met) {
            text += &format!(", {name}: {count}");
        }
        say(&(text + "\n"));
    }

    /// Fails unless there were so many calls, and each case was met at least
    /// 100 times.
    pub fn demand(&self, calls: u64) {
        assert!(self.calls() >= calls, "only {} calls", self.calls());
        for (name, count) in NAMES.iter().zip(self.met) {
            assert!(count >= 100, "{name}: met {count} times");
        }
    }
}
