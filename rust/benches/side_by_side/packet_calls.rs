//! Packets handed to a room, each by a call of its own.

use crate::calls;
use crate::harness::Harness;
use crate::packets::DATA;
use crate::rooms::{Filling, Rooms, EMPTY, FULL, THIN};
use crate::table::{thousands, Row, Table};
use crate::traffic::{Stream, PACKETS};

pub fn table(harness: &mut Harness) -> Table {
    let refused = Stream::data(&EMPTY, DATA[0]);
    let mut rows = vec![row(harness, &EMPTY, "data, refused with 3", &refused)];
    for filling in [&THIN, &FULL] {
        for length in DATA {
            let data = Stream::data(filling, length);
            let name = format!("data, {} bytes", thousands(length));
            rows.push(row(harness, filling, &name, &data).carrying(length));
        }
        rows.push(row(harness, filling, "ping", &Stream::pings()));
    }
    Table {
        title: "Single packet calls",
        words: "One packet handed to a room, from a seat and on a route chosen at random. The \
                library's call is on lent memory, and tests the whole room first. The second \
                program alone: its call on its room, a value of its own for which nothing is \
                tested; what is sent is made bytes, as in the library's output. With one pass: \
                before the call it compares each listed key of the memory with the next, and tests \
                nothing else. With its own test: before the call it makes its full test of the \
                memory, in which it compares each key with all those before it.",
        rows_are: "room and packet",
        sides: &calls::SIDES,
        same_tests: calls::SAME_TESTS,
        rows,
    }
}

fn row(harness: &mut Harness, filling: &Filling, name: &str, stream: &Stream) -> Row {
    let times = calls::measure(harness, &Rooms::filled(filling), stream, PACKETS);
    Row::new(format!("{}: {name}", filling.name), times)
}
