//! Arrivals of a key that is seated, beside the two calls that each of them
//! merges: a leave, and then an arrival.

use crate::calls::{by_library, by_second, second_sides};
use crate::harness::{used, Harness, Side, Time};
use crate::rooms::{Filling, Rooms, FULL, THIN};
use crate::table::{Row, Table};
use reference::call::Call;
use reference::memory;
use reference::room::{BASE, LEAST_OUTPUT};
use std::hint::black_box;

/// The side of the second program with the library's tests.
const SAME_TESTS: usize = 3;

/// Reconnects in a turn.
const COUNT: usize = 16;

/// The seat of the client that comes back. No other is empty, so it is given the
/// same seat.
const SEAT: usize = BASE.seats - 1;

pub fn table(harness: &mut Harness) -> Table {
    let mut rows = Vec::new();
    for filling in [&THIN, &FULL] {
        let rooms = Rooms::filled(filling);
        let peers = format!("{} peers", filling.routes());
        rows.push(row(harness, filling, &peers, &rooms));
        let rooms = rooms.without_routes_of(SEAT);
        rows.push(row(harness, filling, "no peers", &rooms));
    }
    Table {
        title: "Reconnects",
        words: "A client that is seated arrives again, in a room of 40 clients: one call, beside \
                its leave and its arrival as two calls of the library, each of which tests the \
                room. Second program: one call, alone and with its own test. Where peers are told, \
                the room is a fresh copy each time, and to copy it is part of the time on every \
                side.",
        rows_are: "room and client",
        sides: &[
            "library",
            "leave and arrive, two calls",
            "second program alone",
            "with its own test",
        ],
        same_tests: SAME_TESTS,
        rows,
    }
}

fn row(harness: &mut Harness, filling: &Filling, peers: &str, rooms: &Rooms) -> Row {
    let calls = Calls::of(rooms);
    let changed = calls.agree(rooms);
    let times = calls.measure(harness, rooms, changed);
    Row::new(format!("{}: {peers}", filling.name), times)
}

/// A reconnect, in one call and in two.
struct Calls {
    one: Call,
    two: [Call; 2],
}

impl Calls {
    fn of(rooms: &Rooms) -> Calls {
        let key = rooms.client(SEAT).key;
        let arrive = Call::Arrive { key };
        let leave = Call::Leave { seat: SEAT as u8 };
        Calls {
            one: arrive.clone(),
            two: [leave, arrive],
        }
    }

    /// What a reconnect takes, each time on a fresh copy of the room where it is
    /// changed.
    fn measure(&self, harness: &mut Harness, rooms: &Rooms, fresh: bool) -> Vec<Time> {
        let (mut memory, mut out) = (rooms.memory.clone(), [0; LEAST_OUTPUT]);
        let mut one = || {
            for _ in 0..COUNT {
                if fresh {
                    memory.copy_from_slice(black_box(&rooms.memory));
                }
                used(&by_library(&mut memory, black_box(&self.one), &mut out));
            }
        };
        let (mut memory, mut out) = (rooms.memory.clone(), [0; LEAST_OUTPUT]);
        let mut two = || {
            for _ in 0..COUNT {
                if fresh {
                    memory.copy_from_slice(black_box(&rooms.memory));
                }
                for call in &self.two {
                    used(&by_library(&mut memory, black_box(call), &mut out));
                }
            }
        };
        let mut second = second_sides(rooms, &self.one, COUNT, fresh);
        let mut sides: Vec<Side> = vec![&mut one, &mut two];
        sides.extend(second.iter_mut().map(|side| side as Side));
        harness.measure(COUNT, &mut sides)
    }

    /// One call and two answer and write the same, and leave the same memory; so
    /// does the second program. Answers whether the room is changed.
    fn agree(&self, rooms: &Rooms) -> bool {
        let mut after = rooms.clone();
        let mut out = [0; LEAST_OUTPUT];
        let found = by_library(&mut after.memory, &self.one, &mut out);
        let (seat, sent) = by_second(&mut after.plain, &self.one).expect("a seated key");
        assert_eq!((usize::try_from(found), seat), (Ok(sent.len()), SEAT));
        assert!(out.starts_with(&sent));
        assert!(memory::decode(&after.memory).as_ref() == Some(&after.plain));

        let (mut memory, mut two_out) = (rooms.memory.clone(), [0; LEAST_OUTPUT]);
        let two = [0, 1].map(|call| by_library(&mut memory, &self.two[call], &mut two_out));
        assert!(two == [found, 0] && two_out == out && memory == after.memory);
        after.plain != rooms.plain
    }
}
