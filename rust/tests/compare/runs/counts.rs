//! Counts of what runs met.

use crate::tally::{say, Tally};
use reference::play::{Played, Why};

const STOPS: [Why; 4] = [Why::End, Why::NoCall, Why::Allowance, Why::Output];

/// How many runs there were, why they stopped, and what their calls came to.
pub struct Counts {
    runs: usize,
    stops: [usize; 4],
    calls: Tally,
}

impl Counts {
    pub fn new() -> Counts {
        Counts {
            runs: 0,
            stops: [0; 4],
            calls: Tally::new(),
        }
    }

    pub fn add(&mut self, played: &Played) {
        self.runs += 1;
        self.stops[usize::from(played.why.code())] += 1;
        for refusal in refusals(&played.output) {
            match refusal {
                0 => self.calls.add(&Ok(())),
                number => self.calls.add::<()>(&Err(number)),
            }
        }
    }

    pub fn say(&self, name: &str) {
        let mut text = format!("runs, {name}: {}", self.runs);
        for (why, count) in STOPS.iter().zip(self.stops) {
            text += &format!(", {why:?}: {count}");
        }
        say(&(text + "\n" + &self.calls.line("calls played")));
    }

    /// Fails unless there were so many runs, and they met these grounds to stop
    /// and no others.
    pub fn demand(&self, runs: usize, met: &[Why]) {
        assert!(self.runs >= runs, "only {} runs", self.runs);
        for (why, count) in STOPS.iter().zip(self.stops) {
            assert_eq!(count > 0, met.contains(why), "{why:?}: {count} runs");
        }
    }

    /// Fails unless calls were accepted, and refused with 1 and each of 3 to 9. With
    /// 2, which is retired, none is refused.
    pub fn demand_refusals(&self) {
        let refusals = [1, 3, 4, 5, 6, 7, 8, 9];
        self.calls.demand("calls played", &refusals);
    }
}

/// The first byte of each answer of a transcript: the refusal, or 0.
fn refusals(mut transcript: &[u8]) -> Vec<u8> {
    let mut refusals = Vec::new();
    while let [refusal, _seat, high, low, rest @ ..] = transcript {
        refusals.push(*refusal);
        transcript = &rest[usize::from(u16::from_be_bytes([*high, *low]))..];
    }
    assert!(transcript.is_empty(), "a transcript is whole answers");
    refusals
}
