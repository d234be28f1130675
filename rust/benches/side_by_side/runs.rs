//! Data packets played in runs.

use crate::calls::by_library;
use crate::harness::{used, Harness, Side};
use crate::packets::DATA;
use crate::rooms::{Filling, Rooms, EMPTY, FULL, THIN};
use crate::stored::Stored;
use crate::table::{thousands, Row, Table};
use crate::traffic::{Stream, Traffic, PACKETS};
use banavoge::raw::play::{play, Counts};
use reference::room::LEAST_OUTPUT;
use reference::{memory, play as second};
use std::hint::black_box;

/// How many packets a run has. Each divides the packets of a turn.
const RUNS: [usize; 4] = [1, 8, 64, PACKETS];

pub fn table(harness: &mut Harness) -> Table {
    let mut rows = Vec::new();
    for filling in [&EMPTY, &THIN, &FULL] {
        for length in DATA {
            let stream = Stream::data(filling, length);
            for run in RUNS {
                let row = row(harness, filling, length, &stream, run);
                rows.push(row);
            }
        }
    }
    Table {
        title: "Runs of stored calls",
        words: "One data packet, played in a run of so many. The library tests the room once in a \
                run. Library, single call: the same packets, each by a call of its own. Second \
                program alone: its play on its room, with nothing tested. With its own test: its \
                full test of the memory once in a run, then its play. On the empty room every \
                packet is refused with 3.",
        rows_are: "room, data, packets in a run",
        sides: &[
            "library",
            "library, single call",
            "second program alone",
            "with its own test",
        ],
        same_tests: 3,
        rows,
    }
}

fn row(
    harness: &mut Harness,
    filling: &Filling,
    length: usize,
    stream: &Stream,
    run: usize,
) -> Row {
    let rooms = Rooms::filled(filling);
    let stored = Stored::new(stream, run);
    agree(&rooms, &stored);
    let output = stored.output();

    let (mut memory, mut calls, mut out) = (rooms.memory.clone(), stored.clone(), vec![0; output]);
    let mut library = || {
        calls.turn(|calls| {
            let mut counts = Counts::default();
            play(&mut memory, black_box(calls), run, &mut out, &mut counts);
            used(&counts);
        });
    };
    let (mut memory, mut calls, mut out) =
        (rooms.memory.clone(), stream.clone(), [0; LEAST_OUTPUT]);
    let mut single = || {
        calls.turn(|call| {
            used(&by_library(&mut memory, black_box(call), &mut out));
        });
    };
    let (mut room, mut calls) = (rooms.plain.clone(), stored.clone());
    let mut alone = || {
        calls.turn(|calls| {
            used(&second::play(&mut room, black_box(calls), run, output));
        });
    };
    let (mut room, mut calls) = (rooms.plain.clone(), stored.clone());
    let mut with_test = || {
        calls.turn(|calls| {
            assert!(memory::whole(black_box(&rooms.memory)));
            used(&second::play(&mut room, black_box(calls), run, output));
        });
    };
    let mut sides: [Side; 4] = [&mut library, &mut single, &mut alone, &mut with_test];
    let times = harness.measure(PACKETS, &mut sides);
    let row = Row::new(name(filling, length, run), times);
    if filling.routes() == 0 {
        return row;
    }
    row.carrying(length)
}

/// The name of the row for a room, so many bytes of data and so long runs.
pub fn name(filling: &Filling, length: usize, run: usize) -> String {
    format!("{}: {} bytes, {run}", filling.name, thousands(length))
}

/// The two play each run to its end, and write the same.
fn agree(rooms: &Rooms, stored: &Stored) {
    let mut rooms = rooms.clone();
    let (run, mut out) = (stored.run, vec![0; stored.output()]);
    let mut calls = stored.clone();
    for _ in 0..stored.turns() {
        calls.turn(|calls| {
            let expected = second::play(&mut rooms.plain, calls, run, out.len());
            assert_eq!((expected.calls, expected.why), (run, second::Why::End));
            let mut counts = Counts::default();
            assert_eq!(
                play(&mut rooms.memory, calls, run, &mut out, &mut counts),
                0
            );
            assert_eq!((counts.played, counts.read), (run, calls.len()));
            assert!(out[..counts.written] == expected.output);
        });
    }
}
