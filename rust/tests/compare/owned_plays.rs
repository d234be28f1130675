//! Stored calls played on rooms that own their memory, beside the second
//! program: how calls are stored, where a replay stops, and what is shown of
//! each answer.

use crate::owned_rooms::same_records;
use crate::tally::say;
use banavoge::{Key, Refusal, Room, Seat, Stop, TooLong};
use reference::call::{self, Call};
use reference::generate::Generator as Histories;
use reference::memory;
use reference::play::{self, Why};
use reference::room::{self, BASE};

const HISTORIES: u64 = 10;
const CALLS: usize = 2_000;

/// A call of the second program as the library has it.
fn to_library(call: &Call) -> banavoge::Call<'_> {
    match call {
        Call::Arrive { key } => banavoge::Call::Arrive { key: Key(*key) },
        Call::Leave { seat } => banavoge::Call::Leave { seat: Seat(*seat) },
        Call::Packet { seat, bytes } => banavoge::Call::Packet {
            seat: Seat(*seat),
            packet: bytes,
        },
        Call::Tick { .. } => unreachable!("a tick has no stored form"),
    }
}

/// The calls, one behind the other, as both store them.
fn stored(calls: &[Call]) -> Vec<u8> {
    let mut stored = Vec::new();
    for call in calls {
        to_library(call).store(&mut stored).expect("a short packet");
    }
    assert_eq!(Some(&stored), call::write_all(calls).as_ref());
    stored
}

fn stop(why: Why) -> Stop {
    match why {
        Why::End => Stop::End,
        Why::NoCall => Stop::NoCall,
        Why::Allowance => Stop::Allowance,
        Why::Output => Stop::Output,
    }
}

/// Plays with library and reference, and fails where they differ. Answers how
/// many bytes of the calls were read, and why it stopped.
fn compare(
    library: &mut Room,
    reference: &mut room::Room,
    calls: &[u8],
    allowance: usize,
    output: usize,
) -> (usize, Why) {
    let before = reference.clone();
    let expected = play::play(reference, calls, allowance, output);
    let mut out = vec![0; output];
    let found = library
        .play(calls, allowance, &mut out)
        .expect("a whole room");
    assert_eq!(found.calls, expected.calls);
    assert_eq!(found.read, expected.read);
    assert_eq!(found.stop, stop(expected.why));
    assert_eq!(found.answers.as_bytes(), expected.output);

    let mut room = before;
    let mut place = 0;
    for answer in found.answers {
        let (call, length) = call::read(&calls[place..]).expect("a call that was played");
        place += length;
        match (answer, call.make(&mut room, room::LEAST_OUTPUT)) {
            (Ok(found), Ok(expected)) => {
                assert_eq!(found.seat.index(), expected.seat, "{call:?}");
                same_records(found.records, &expected.records, &format!("{call:?}"));
            }
            (found, expected) => {
                let found = found.err().map(Refusal::number);
                assert_eq!(found, expected.err(), "{call:?}");
            }
        }
    }
    assert_eq!(place, expected.read);
    let held = memory::decode(library.as_bytes());
    assert!(held.as_ref() == Some(reference));
    (expected.read, expected.why)
}

#[test]
fn stored_calls_are_played_as_by_the_reference() {
    let mut stops = [0; 4];
    for history in 0..HISTORIES {
        let calls: Vec<Call> = Histories::new(11_000 + history, BASE).take(CALLS).collect();
        let mut calls = stored(&calls);
        // Behind the calls stands what is none.
        calls.extend([3, 0, 0, 0]);
        let mut library = Room::empty();
        let mut reference = room::Room::empty(BASE);
        let mut place = 0;
        let mut turn = 0;
        loop {
            let allowance = [0, 1, 7, 200, usize::MAX][turn % 5];
            let output = [2_052, 9_000, 2_051, 40_000][turn % 4];
            turn += 1;
            let rest = &calls[place..];
            let (read, why) = compare(&mut library, &mut reference, rest, allowance, output);
            place += read;
            stops[usize::from(why.code())] += 1;
            if why == Why::NoCall {
                break;
            }
        }
        let (read, why) = compare(&mut library, &mut reference, &[], 0, 0);
        assert_eq!((read, why), (0, Why::End));
        stops[0] += 1;
    }
    say(&format!(
        "stored calls played: {} of {HISTORIES} histories, stops {stops:?}\n",
        HISTORIES as usize * CALLS
    ));
    assert!(stops.iter().all(|count| *count >= HISTORIES as usize));
}

#[test]
fn a_packet_that_is_too_long_is_not_stored() {
    let seat = Seat(1);
    let mut calls = vec![7];
    let packet = &[0x61; 65_536][..];
    let long = banavoge::Call::Packet { seat, packet };
    assert_eq!(long.store(&mut calls), Err(TooLong));
    assert_eq!(calls, [7]);

    let packet = &packet[1..];
    let longest = banavoge::Call::Packet { seat, packet };
    assert_eq!(longest.store(&mut calls), Ok(()));
    assert_eq!(calls[..5], [7, 2, 1, 0xff, 0xff]);
    assert_eq!(calls.len(), 1 + 4 + 65_535);
}
