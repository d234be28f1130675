//! The full test of a room by itself.

use crate::harness::{Harness, Side};
use crate::pass::pass;
use crate::rooms::{Filling, Rooms, EMPTY, FULL, THIN};
use crate::table::{Row, Table};
use banavoge::raw;
use reference::memory;
use std::hint::black_box;

/// The side that is one pass.
pub const PASS: usize = 1;

/// The side that is the second program's own test.
const OWN_TEST: usize = 2;

/// Tests in a turn.
const COUNT: usize = 16;

/// Each test answers whether the memory holds a whole room.
const TESTS: [fn(&[u8]) -> bool; 3] = [|memory| raw::room::check(memory) == 0, pass, memory::whole];

pub fn table(harness: &mut Harness) -> Table {
    let fillings = [&EMPTY, &THIN, &FULL];
    let rows = fillings.map(|filling| row(harness, filling)).into();
    Table {
        title: "The test of a room",
        words:
            "The full test that every call on a room makes first, by itself. One pass: in plain \
                Rust, byte by byte as the second program compares, each listed key of the memory \
                is compared with the next, and nothing else is tested. Second program: its full \
                test, in which it compares each key with all those before it, and each wanted key \
                with the seat's own, and looks at each ping time.",
        rows_are: "room",
        sides: &["library", "one pass", "second program"],
        same_tests: OWN_TEST,
        rows,
    }
}

fn row(harness: &mut Harness, filling: &Filling) -> Row {
    let memory = Rooms::filled(filling).memory;
    let mut sides = TESTS.map(|test| {
        let memory = &memory;
        move || {
            for _ in 0..COUNT {
                assert!(test(black_box(memory)));
            }
        }
    });
    let mut sides: Vec<Side> = sides.iter_mut().map(|side| side as Side).collect();
    Row::new(filling.name, harness.measure(COUNT, &mut sides))
}
