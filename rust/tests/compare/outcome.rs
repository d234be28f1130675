//! A call of the relay as the library makes it, and what it comes to.

use banavoge::raw;
use reference::call::Call;
use reference::record;
use reference::refusal::Refusal;
use reference::room::Accepted;

/// What stands in the place for a seat before a call: no seat.
const UNSET: u8 = 0xa5;

/// What a call of the library comes to.
#[derive(Debug, Clone, Copy, PartialEq, Eq)]
pub struct Outcome {
    /// The bytes written, or minus a refusal.
    pub answer: i32,
    /// What stands in the place for a seat. Only an arrival is lent it, and only
    /// one that is accepted sets it.
    pub seat: u8,
}

impl Outcome {
    pub fn refused(number: Refusal) -> Outcome {
        Outcome {
            answer: -i32::from(number),
            seat: UNSET,
        }
    }

    /// How many bytes were written.
    pub fn written(self) -> usize {
        usize::try_from(self.answer).unwrap_or(0)
    }
}

/// Makes a call in the library.
pub fn make(call: &Call, memory: &mut [u8], out: &mut [u8]) -> Outcome {
    let mut seat = UNSET;
    let answer = match call {
        Call::Arrive { key } => raw::relay::arrive(memory, key, out, &mut seat),
        Call::Leave { seat } => raw::relay::leave(memory, *seat, out),
        Call::Packet { seat, bytes } => raw::relay::packet(memory, *seat, bytes, out),
        Call::Tick { time, ping } => raw::relay::tick(memory, *time, *ping, out),
    };
    Outcome { answer, seat }
}

/// What a call of the library is to come to, for what the second program answers.
pub fn expected(call: &Call, answer: &Result<Accepted, Refusal>) -> Outcome {
    let accepted = match answer {
        Ok(accepted) => accepted,
        Err(number) => return Outcome::refused(*number),
    };
    Outcome {
        answer: record::bytes(&accepted.records).len() as i32,
        seat: match call {
            Call::Arrive { .. } => accepted.seat as u8,
            _ => UNSET,
        },
    }
}
