//! The two calls that a reconnect merges, and a reconnect beside them.

use crate::outcome::{expected, make, Outcome};
use crate::output::Output;
use crate::relay::written;
use banavoge::raw;
use reference::call::Call;
use reference::key::Key;
use reference::lent;
use reference::memory;
use reference::room::{BASE, LEAST_OUTPUT};

/// A leave of the seat that the key has, and then its arrival. All that is sent is
/// sent by the leave: the answer is the leave's, and the seat the arrival's.
pub fn leave_and_arrive(key: &Key, memory: &mut Output, out: &mut Output) -> Outcome {
    let seat = raw::sitting::seat_of(memory.lent(), key);
    let seat = u8::try_from(seat).expect("a seated key");
    let left = make(&Call::Leave { seat }, memory.lent(), out.lent());
    let arrived = make(&Call::Arrive { key: *key }, memory.lent(), out.lent());
    assert_eq!(arrived.answer, 0, "an arrival of a key that is not seated");
    Outcome {
        answer: left.answer,
        seat: arrived.seat,
    }
}

/// A seated key arrives again. Fails where the library differs from the second
/// program, or its one call from its two. Answers the seat and what is sent.
pub fn arrive_again(memory: &mut Output, key: &Key) -> (u8, Vec<u8>) {
    let told = format!("{key:?} comes back");
    let call = Call::Arrive { key: *key };
    let mut out = Output::new(LEAST_OUTPUT, 0x33);
    let (mut two_memory, mut two_out) = (memory.clone(), out.clone());
    let (room, accepted) =
        lent::make(BASE, memory.lent(), &call, LEAST_OUTPUT).expect("a seated key in a whole room");
    let answer = Ok(accepted);
    let out_after = written(&out, &answer);

    let one = make(&call, memory.lent(), out.lent());
    assert_eq!(one, expected(&call, &answer), "{told}");
    assert!(out == out_after, "{told}: the output");
    let held = memory::decode(memory.lent());
    assert!(held == Some(room), "{told}: the room");

    let two = leave_and_arrive(key, &mut two_memory, &mut two_out);
    assert_eq!(one, two, "{told}");
    assert!(out == two_out, "{told}: the output of two calls");
    assert!(*memory == two_memory, "{told}: the memory of two calls");
    (one.seat, out.lent()[..one.written()].to_vec())
}
