//! A history to play, with the places at which a run of it may stop.

use super::lent::Lent;
use reference::call::{self, Call};
use reference::play::{answer_bytes, Played, Why};
use reference::room::{Room, LEAST_OUTPUT};

/// The output that must be left before a call: its head, and the least output.
pub const LEAST_LEFT: usize = 4 + LEAST_OUTPUT;

/// Calls, as they are stored and as they are answered one by one by the second
/// program, not by its run.
pub struct History {
    pub name: String,
    pub calls: Vec<Call>,
    pub stored: Vec<u8>,
    /// Where each call starts, and then where the last one ends.
    pub starts: Vec<usize>,
    pub transcript: Vec<u8>,
    /// Where each answer starts, and then where the last one ends.
    pub answers: Vec<usize>,
}

impl History {
    /// These calls, made on a room that is left as it is.
    pub fn new(name: String, calls: Vec<Call>, room: &Room) -> History {
        let mut room = room.clone();
        let (mut stored, mut starts) = (Vec::new(), vec![0]);
        let (mut transcript, mut answers) = (Vec::new(), vec![0]);
        for call in &calls {
            stored.extend(call::write(call).expect("a packet of at most 65,535 bytes"));
            starts.push(stored.len());
            transcript.extend(answer_bytes(&call.make(&mut room, LEAST_OUTPUT)));
            answers.push(transcript.len());
        }
        History {
            name,
            calls,
            stored,
            starts,
            transcript,
            answers,
        }
    }

    /// How many calls there are.
    pub fn length(&self) -> usize {
        self.calls.len()
    }

    /// The least output with which every call is played.
    pub fn least_output(&self) -> usize {
        match self.length() {
            0 => 0,
            calls => self.answers[calls - 1] + LEAST_LEFT,
        }
    }

    /// What a run of every call is lent: no more than it needs, but for the
    /// allowance.
    pub fn whole(&self) -> Lent<'_> {
        Lent {
            name: &self.name,
            calls: &self.stored,
            allowance: usize::MAX,
            output: self.least_output(),
        }
    }

    /// How many calls end at this place of the stored ones, or before it.
    pub fn calls_before(&self, place: usize) -> usize {
        self.starts[1..].partition_point(|end| *end <= place)
    }

    /// How many calls, from the first on, find output enough left.
    pub fn calls_with(&self, output: usize) -> usize {
        let starts = &self.answers[..self.length()];
        starts.partition_point(|start| start + LEAST_LEFT <= output)
    }

    /// Fails unless just so many calls were played, and answered as they are
    /// one by one, before the run stopped on this ground.
    pub fn stopped(&self, played: &Played, calls: usize, why: Why) {
        let name = &self.name;
        assert_eq!((played.calls, played.why), (calls, why), "{name}");
        assert_eq!(played.read, self.starts[calls], "{name}");
        let transcript = &self.transcript[..self.answers[calls]];
        assert!(played.output == transcript, "{name}: the transcript");
    }
}
