//! Rooms that own their memory, history by history beside the second program:
//! what is shown of each answer and of each record, and who sits where after
//! each tick.

use crate::tally::say;
use banavoge::{FromRelay, Key, Records, Refusal, Room, Seat, LEAST_OUTPUT, LEAST_TICK_OUTPUT};
use reference::call::Call;
use reference::generate::Generator as Histories;
use reference::memory;
use reference::record::{self, Record};
use reference::room::{self, BASE};

const HISTORIES: u64 = 14;
const CALLS: usize = 8_000;

/// The records are the second program's, one by one and as bytes, and each has
/// a packet that a client takes.
pub fn same_records(found: Records, expected: &[Record], told: &str) {
    assert_eq!(found.as_bytes(), record::bytes(expected), "{told}");
    assert_eq!(found.clone().count(), expected.len(), "{told}");
    for (found, expected) in found.zip(expected) {
        assert_eq!(found.seat.index(), expected.seat, "{told}");
        assert_eq!(found.packet, expected.packet, "{told}");
        assert!(FromRelay::read(found.packet).is_ok(), "{told}");
    }
}

/// The same clients sit in the same seats. A key that has left has none.
fn same_seats(library: &Room, reference: &room::Room, left: &[reference::key::Key], told: &str) {
    for seat in 0..=255 {
        let expected = reference
            .client(usize::from(seat))
            .map(|client| Key(client.key));
        assert_eq!(library.key_in(Seat(seat)), expected, "{told}: seat {seat}");
        if let Some(key) = expected {
            assert_eq!(library.seat_of(&key), Some(Seat(seat)), "{told}: {key}");
        }
    }
    for key in left.iter().filter(|key| reference.seat_of(key).is_none()) {
        assert_eq!(library.seat_of(&Key(*key)), None, "{told}");
    }
}

#[test]
fn rooms_that_own_their_memory_agree_with_the_reference() {
    assert_eq!(LEAST_OUTPUT, room::LEAST_OUTPUT);
    assert_eq!(LEAST_TICK_OUTPUT, room::LEAST_TICK_OUTPUT);
    let (mut sent, mut refused, mut ticks, mut put_out) = (0, 0, 0, 0);
    for history in 0..HISTORIES {
        let mut library = Room::empty();
        let mut reference = room::Room::empty(BASE);
        let mut out = [0; LEAST_TICK_OUTPUT];
        // By turns without ticks and with them.
        let calls = match history % 2 {
            0 => Histories::new(9_000 + history, BASE),
            _ => Histories::with_ticks(9_000 + history, BASE),
        };
        for (place, call) in calls.take(CALLS).enumerate() {
            let told = format!("call {place} of history {history}: {call:?}");
            let before = reference.clone();
            let expected = call.make(&mut reference, call.least_output());
            let found = match &call {
                Call::Arrive { key } => library.arrive(&Key(*key), &mut out).map(|arrival| {
                    let seat = expected.as_ref().map(|accepted| accepted.seat);
                    assert_eq!(Ok(arrival.seat.index()), seat, "{told}");
                    arrival.records
                }),
                Call::Leave { seat } => library.leave(Seat(*seat), &mut out),
                Call::Packet { seat, bytes } => library.packet(Seat(*seat), bytes, &mut out),
                Call::Tick { time, ping } => library.tick(*time, *ping, &mut out),
            };
            if let Call::Tick { .. } = call {
                let seated = before.seats.iter().flatten();
                let keys: Vec<_> = seated.map(|client| client.key).collect();
                same_seats(&library, &reference, &keys, &told);
                ticks += 1;
                put_out += keys.len() - reference.seats.iter().flatten().count();
            }
            match (found, expected) {
                (Ok(found), Ok(expected)) => {
                    sent += expected.records.len();
                    same_records(found, &expected.records, &told);
                }
                (found, expected) => {
                    refused += 1;
                    let found = found.err().map(Refusal::number);
                    assert_eq!(found, expected.err(), "{told}");
                }
            }
        }
        let held = memory::decode(library.as_bytes());
        assert!(held.as_ref() == Some(&reference), "history {history}");
    }
    say(&format!(
        "rooms that own their memory: {sent} records sent, {refused} calls refused, \
         {ticks} ticks, {put_out} clients put out\n"
    ));
    assert!(sent >= 10_000 && refused >= 10_000);
    assert!(ticks >= 1_000 && put_out >= 1_000);
}

/// An output one byte too short for an arrival, of a key that is seated or not,
/// though the arrival would send nothing.
#[test]
fn an_arrival_asks_for_the_least_output() {
    let (mut room, mut out) = (Room::empty(), [0x5a; LEAST_OUTPUT]);
    for _ in 0..2 {
        let short = room.arrive(&Key([1; 32]), &mut out[..LEAST_OUTPUT - 1]);
        assert_eq!(short.err(), Some(Refusal::OutputTooShort));
        let arrival = room.arrive(&Key([1; 32]), &mut out).expect("a seat");
        assert_eq!((arrival.seat, arrival.records.count()), (Seat(0), 0));
    }
    assert!(out.iter().all(|byte| *byte == 0x5a));
}

/// An output one byte too short for a tick, though the tick would send nothing.
#[test]
fn a_tick_asks_for_its_own_least_output() {
    let mut room = Room::empty();
    let mut out = [0x5a; LEAST_TICK_OUTPUT];
    let short = room.tick(1, 1, &mut out[..LEAST_TICK_OUTPUT - 1]);
    assert_eq!(short.err(), Some(Refusal::OutputTooShort));
    assert_eq!(room.tick(1, 0, &mut out).err(), Some(Refusal::ZeroPing));
    assert_eq!(room.tick(1, 1, &mut out).map(Iterator::count), Ok(0));
    assert_eq!(room.tick(1, 1, &mut out).map(Iterator::count), Ok(0));
    assert_eq!(room.tick(0, 1, &mut out).err(), Some(Refusal::ClockBack));
    assert!(out.iter().all(|byte| *byte == 0x5a));
}
