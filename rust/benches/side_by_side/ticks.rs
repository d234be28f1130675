//! Ticks, beside the full test of a room that each of them makes first.

use crate::calls::{by_library, by_second, second_sides};
use crate::harness::{used, Harness, Side, Time};
use crate::rooms::{Filling, Rooms, EMPTY, FULL, THIN};
use crate::table::{Row, Table};
use banavoge::raw;
use reference::call::Call;
use reference::memory;
use reference::room::LEAST_TICK_OUTPUT;
use std::hint::black_box;

/// The side that is the full test by itself.
pub const FULL_TEST: usize = 1;

/// The side of the second program with the library's tests.
const SAME_TESTS: usize = 3;

/// Ticks in a turn.
const COUNT: usize = 16;

/// The clock of the rooms.
const CLOCK: u64 = 1_000;

/// What a tick finds to do.
#[derive(Clone, Copy)]
enum Work {
    /// Some seats were pinged under 10 seconds ago and have not answered, the
    /// others under 30 seconds ago.
    Nothing,
    /// Every client is to be pinged.
    PingsAll,
    /// No client has answered.
    PutsOutAll,
}

impl Work {
    fn name(self) -> &'static str {
        match self {
            Work::Nothing => "nothing to do",
            Work::PingsAll => "pings all",
            Work::PutsOutAll => "puts out all",
        }
    }

    /// The ping time of a seat, and its ping not yet answered or 0.
    fn pings(self, seat: u64) -> (u64, u64) {
        match self {
            Work::Nothing if seat % 3 == 0 => (CLOCK - seat % 10, 5),
            Work::Nothing => (CLOCK - seat % 30, 0),
            Work::PingsAll => (CLOCK - 30, 0),
            Work::PutsOutAll => (CLOCK - 10, 5),
        }
    }
}

pub fn table(harness: &mut Harness) -> Table {
    let mut rows = Vec::new();
    for filling in [&EMPTY, &THIN, &FULL] {
        rows.push(row(harness, filling, Work::Nothing));
    }
    for filling in [&THIN, &FULL] {
        rows.push(row(harness, filling, Work::PingsAll));
        rows.push(row(harness, filling, Work::PutsOutAll));
    }
    Table {
        title: "Ticks",
        words:
            "A tick on a room of 40 clients, or an empty one. Full test: that of the library by \
                itself, which each of its ticks makes first. Second program: alone, and with its \
                own test. Where a tick pings or puts out, the room is a fresh copy each time, and \
                to copy it is part of the time, on the side of the full test too.",
        rows_are: "room and tick",
        sides: &[
            "library",
            "full test",
            "second program alone",
            "with its own test",
        ],
        same_tests: SAME_TESTS,
        rows,
    }
}

/// The name of the row of a tick with nothing to do.
pub fn idle_name(filling: &Filling) -> String {
    name(filling, Work::Nothing)
}

fn name(filling: &Filling, work: Work) -> String {
    format!("{}: {}", filling.name, work.name())
}

fn row(harness: &mut Harness, filling: &Filling, work: Work) -> Row {
    let rooms = Rooms::filled(filling).at(CLOCK, |seat| work.pings(seat));
    let tick = Call::Tick {
        time: CLOCK,
        ping: 9,
    };
    agree(&rooms, &tick, work);
    let fresh = !matches!(work, Work::Nothing);
    Row::new(name(filling, work), measure(harness, &rooms, &tick, fresh))
}

/// What a tick takes, each time on a fresh copy of the room where it is changed.
fn measure(harness: &mut Harness, rooms: &Rooms, tick: &Call, fresh: bool) -> Vec<Time> {
    let (mut memory, mut tested) = (rooms.memory.clone(), rooms.memory.clone());
    let mut out = [0; LEAST_TICK_OUTPUT];
    let mut library = || {
        for _ in 0..COUNT {
            if fresh {
                memory.copy_from_slice(black_box(&rooms.memory));
            }
            used(&by_library(&mut memory, black_box(tick), &mut out));
        }
    };
    let mut full_test = || {
        for _ in 0..COUNT {
            if fresh {
                tested.copy_from_slice(black_box(&rooms.memory));
            }
            assert_eq!(raw::room::check(black_box(&tested)), 0);
        }
    };
    let mut second = second_sides(rooms, tick, COUNT, fresh);
    let mut sides: Vec<Side> = vec![&mut library, &mut full_test];
    sides.extend(second.iter_mut().map(|side| side as Side));
    harness.measure(COUNT, &mut sides)
}

/// The two answer and write the same, and the tick does what its row says.
fn agree(rooms: &Rooms, tick: &Call, work: Work) {
    let mut after = rooms.clone();
    let mut out = [0; LEAST_TICK_OUTPUT];
    let found = by_library(&mut after.memory, tick, &mut out);
    let (_, sent) = by_second(&mut after.plain, tick).expect("a good tick");
    assert_eq!(usize::try_from(found), Ok(sent.len()));
    assert!(out.starts_with(&sent));
    assert!(memory::decode(&after.memory).as_ref() == Some(&after.plain));
    let mut seated = after.plain.seats.iter().flatten();
    match work {
        Work::Nothing => assert!(after.plain == rooms.plain && sent.is_empty()),
        Work::PingsAll => assert!(seated.all(|client| client.outstanding == 9)),
        Work::PutsOutAll => assert!(seated.next().is_none()),
    }
}
