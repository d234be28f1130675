//! The calls of a run, made by themselves.

use crate::outcome::{make, Outcome};
use crate::output::Output;
use reference::call::Call;
use reference::room::LEAST_OUTPUT;

/// Makes each call by itself in the library. Answers what a run of them writes.
pub fn one_by_one(calls: &[Call], memory: &mut Output) -> Vec<u8> {
    let mut out = [0; LEAST_OUTPUT];
    let mut transcript = Vec::new();
    for call in calls {
        let outcome = make(call, memory.lent(), &mut out);
        transcript.extend(head(call, outcome));
        transcript.extend(&out[..outcome.written()]);
    }
    transcript
}

/// The refusal, the seat and the length of what is sent.
fn head(call: &Call, outcome: Outcome) -> [u8; 4] {
    if outcome.answer < 0 {
        return [-outcome.answer as u8, 0, 0, 0];
    }
    let seat = match call {
        Call::Arrive { .. } => outcome.seat,
        Call::Leave { seat } | Call::Packet { seat, .. } => *seat,
        Call::Tick { .. } => unreachable!("a tick has no stored form"),
    };
    let [high, low] = (outcome.written() as u16).to_be_bytes();
    [0, seat, high, low]
}
