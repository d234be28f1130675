//! Runs of stored calls: the packets of a stream, so many in each run.

use crate::traffic::{Sent, Stream, PACKETS};
use reference::call;
use reference::room::LEAST_OUTPUT;

/// In a stored packet call the seat stands behind the call's own byte, and the
/// packet behind the head.
const SEAT: usize = 1;
const HEAD: usize = 4;

/// What play writes before the packet that is sent on: the head of the answer,
/// and that of the record.
const BEFORE_PACKET: usize = 4 + 3;

/// The runs of a stream. They are one buffer, in which seats and first bytes
/// are set before each run; that takes about a nanosecond for each packet, and
/// is in every time.
#[derive(Clone)]
pub struct Stored {
    sent: Vec<Sent>,
    calls: Vec<u8>,
    /// How many packets a run has.
    pub run: usize,
    next: usize,
}

impl Stored {
    pub fn new(stream: &Stream, run: usize) -> Stored {
        let call = call::write(&stream.call).expect("a short packet");
        Stored {
            sent: stream.sent.clone(),
            calls: call.repeat(run),
            run,
            next: 0,
        }
    }

    /// Output enough for a run.
    pub fn output(&self) -> usize {
        self.calls.len() + self.run * BEFORE_PACKET + LEAST_OUTPUT
    }

    /// How many turns there are.
    pub fn turns(&self) -> usize {
        self.sent.len() / PACKETS
    }

    /// Plays the runs of the next turn.
    pub fn turn(&mut self, mut play: impl FnMut(&[u8])) {
        let width = self.calls.len() / self.run;
        for sent in self.sent[self.next * PACKETS..][..PACKETS].chunks(self.run) {
            for (call, sent) in self.calls.chunks_exact_mut(width).zip(sent) {
                call[SEAT] = sent.seat;
                call[HEAD] = sent.first;
            }
            play(&self.calls);
        }
        self.next = (self.next + 1) % self.turns();
    }
}
