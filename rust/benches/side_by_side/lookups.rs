//! Who sits where, asked of a room.

use crate::harness::{Harness, Side};
use crate::rooms::{Filling, Rooms, FULL, THIN};
use crate::table::{Row, Table};
use banavoge::raw::sitting;
use reference::key::Key;
use reference::memory;
use reference::room::{Room, BASE};
use std::hint::black_box;

/// The side of the second program with the library's tests.
const SAME_TESTS: usize = 2;

/// Which seats or keys are asked for, in a turn.
#[derive(Clone, Copy)]
enum Asked {
    KeyIn,
    SeatOf,
}

impl Asked {
    fn name(self) -> &'static str {
        match self {
            Asked::KeyIn => "the key in a seat",
            Asked::SeatOf => "the seat of a key",
        }
    }

    /// Whether the library finds the client in a seat.
    fn by_library(self, memory: &[u8], seat: usize, key: &Key) -> bool {
        match self {
            Asked::KeyIn => {
                let mut found = [0; 32];
                sitting::key_in(memory, seat as u8, &mut found) == 0 && found == *key
            }
            Asked::SeatOf => sitting::seat_of(memory, key) == seat as i32,
        }
    }

    /// Whether the second program does.
    fn by_second(self, room: &Room, seat: usize, key: &Key) -> bool {
        match self {
            Asked::KeyIn => room.client(seat).is_some_and(|client| client.key == *key),
            Asked::SeatOf => room.seat_of(key) == Some(seat),
        }
    }
}

pub fn table(harness: &mut Harness) -> Table {
    let mut rows = Vec::new();
    for filling in [&THIN, &FULL] {
        for asked in [Asked::KeyIn, Asked::SeatOf] {
            rows.push(row(harness, filling, asked));
        }
    }
    Table {
        title: "Who sits where",
        words: "One client looked up, each of the 40 in turn. The library tests the whole room \
                first. The second program: alone, and with its own test of the memory.",
        rows_are: "room and question",
        sides: &["library", "second program alone", "with its own test"],
        same_tests: SAME_TESTS,
        rows,
    }
}

fn row(harness: &mut Harness, filling: &Filling, asked: Asked) -> Row {
    let rooms = Rooms::filled(filling);
    let keys: Vec<Key> = (0..BASE.seats).map(|seat| rooms.client(seat).key).collect();
    let each = |test: &dyn Fn(usize, &Key) -> bool| {
        for (seat, key) in keys.iter().enumerate() {
            assert!(test(seat, black_box(key)));
        }
    };
    let memory = &rooms.memory;
    let mut library = || each(&|seat, key| asked.by_library(black_box(memory), seat, key));
    let mut second = || each(&|seat, key| asked.by_second(black_box(&rooms.plain), seat, key));
    let mut second_tested = || {
        each(&|seat, key| {
            memory::whole(black_box(memory)) && asked.by_second(&rooms.plain, seat, key)
        })
    };
    let sides: &mut [Side] = &mut [&mut library, &mut second, &mut second_tested];
    let times = harness.measure(BASE.seats, sides);
    Row::new(format!("{}: {}", filling.name, asked.name()), times)
}
