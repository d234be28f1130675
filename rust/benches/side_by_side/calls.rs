//! Single calls on a room, made by the library and by the second program.

use crate::harness::{used, Harness, Side, Time};
use crate::pass::pass;
use crate::rooms::Rooms;
use crate::traffic::Traffic;
use banavoge::raw;
use reference::call::Call;
use reference::memory;
use reference::record;
use reference::room::{Room, LEAST_OUTPUT};
use std::hint::black_box;

/// The sides of such a table.
pub const SIDES: [&str; 4] = [
    "library",
    "second program alone",
    "with one pass",
    "with its own test",
];

/// The side with the library's tests.
pub const SAME_TESTS: usize = 3;

/// What the second program tests before each call: nothing, for its room is a
/// value of its own that nobody else writes; one pass, which is less than a test
/// of lent memory has to do; or all that the papers ask of it, as it tests it.
const TESTS: [fn(&[u8]) -> bool; 3] = [|_| true, pass, memory::whole];

/// What a call takes, or a group of calls, of which each turn has `count`.
pub fn measure(
    harness: &mut Harness,
    rooms: &Rooms,
    traffic: &impl Traffic,
    count: usize,
) -> Vec<Time> {
    agree(rooms, traffic);

    let mut memory = rooms.memory.clone();
    let mut out = [0; LEAST_OUTPUT];
    let mut calls = traffic.clone();
    let mut library = || {
        calls.turn(|call| {
            used(&by_library(&mut memory, black_box(call), &mut out));
        });
    };
    let mut second = TESTS.map(|test| {
        let mut room = rooms.plain.clone();
        let mut calls = traffic.clone();
        move || {
            calls.turn(|call| {
                assert!(test(black_box(&rooms.memory)));
                used(&by_second(&mut room, black_box(call)));
            });
        }
    });
    let mut sides: Vec<Side> = vec![&mut library];
    sides.extend(second.iter_mut().map(|side| side as Side));
    harness.measure(count, &mut sides)
}

/// A call of the library on lent memory. The seat of an arrival is not looked at.
pub fn by_library(memory: &mut [u8], call: &Call, out: &mut [u8]) -> i32 {
    match call {
        Call::Arrive { key } => raw::relay::arrive(memory, key, out, &mut 0),
        Call::Leave { seat } => raw::relay::leave(memory, *seat, out),
        Call::Packet { seat, bytes } => raw::relay::packet(memory, *seat, bytes, out),
        Call::Tick { time, ping } => raw::relay::tick(memory, *time, *ping, out),
    }
}

/// The same call of the second program. What it sends is made bytes, as the
/// library's output is.
pub fn by_second(room: &mut Room, call: &Call) -> Result<(usize, Vec<u8>), u8> {
    let accepted = call.make(room, call.least_output())?;
    Ok((accepted.seat, record::bytes(&accepted.records)))
}

/// The second program's sides of one call, made `count` times in a turn: alone,
/// and with its own full test of the memory before each. Where the call changes
/// the room, it is made on a fresh copy each time.
pub fn second_sides<'a>(
    rooms: &'a Rooms,
    call: &'a Call,
    count: usize,
    fresh: bool,
) -> [impl FnMut() + 'a; 2] {
    let tests: [fn(&[u8]) -> bool; 2] = [|_| true, memory::whole];
    tests.map(|test| {
        let mut room = rooms.plain.clone();
        move || {
            for _ in 0..count {
                if fresh {
                    room = rooms.plain.clone();
                }
                assert!(test(black_box(&rooms.memory)));
                used(&by_second(&mut room, black_box(call)));
            }
        }
    })
}

/// The two answer and write the same, and after each turn the room is as it
/// was, so that any other turn may follow.
fn agree(rooms: &Rooms, traffic: &impl Traffic) {
    let mut after = rooms.clone();
    let mut out = [0; LEAST_OUTPUT];
    let mut calls = traffic.clone();
    for _ in 0..traffic.turns() {
        calls.turn(|call| {
            let found = by_library(&mut after.memory, call, &mut out);
            match by_second(&mut after.plain, call) {
                Ok((_, sent)) => {
                    assert_eq!(usize::try_from(found), Ok(sent.len()));
                    assert!(out.starts_with(&sent));
                }
                Err(number) => assert_eq!(found, -i32::from(number)),
            }
        });
        assert!(after.plain == rooms.plain);
        assert!(memory::decode(&after.memory).as_ref() == Some(&rooms.plain));
    }
}
