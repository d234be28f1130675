//! Answers of the library, as results.

use crate::Refusal;

/// An answer of 0 or more as it is; one below 0 is a refusal number with its
/// sign changed.
pub fn accepted(answer: i32) -> Result<usize, Refusal> {
    usize::try_from(answer).map_err(|_| refusal(answer))
}

/// The answer of a lookup in a whole room: none where it is refused with 3.
pub fn found(answer: i32) -> Option<usize> {
    match accepted(answer) {
        Ok(found) => Some(found),
        Err(Refusal::NotSeated) => None,
        Err(why) => unreachable!("a room that owns its memory is whole: {why}"),
    }
}

fn refusal(answer: i32) -> Refusal {
    u8::try_from(answer.unsigned_abs())
        .ok()
        .and_then(Refusal::from_number)
        .expect("the library refuses with the papers' numbers")
}
