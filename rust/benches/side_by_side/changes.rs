//! Calls that change a room.

use crate::calls;
use crate::groups::Groups;
use crate::harness::Harness;
use crate::rooms::{Filling, Rooms, FULL, THIN};
use crate::table::{Row, Table};

pub fn table(harness: &mut Harness) -> Table {
    let mut rows = Vec::new();
    for filling in [&THIN, &FULL] {
        let rooms = Rooms::filled(filling);
        let groups = Groups::drop_and_request(&rooms, filling);
        rows.push(row(harness, filling, "drop, request", &rooms, &groups));

        let groups = Groups::go_and_return(&rooms, filling);
        let name = format!("leave, arrive, {} requests", filling.routes());
        rows.push(row(harness, filling, &name, &rooms, &groups));

        let rooms = rooms.without_the_last();
        let groups = Groups::arrive_and_leave();
        rows.push(row(harness, filling, "arrive, leave", &rooms, &groups));
    }
    Table {
        title: "Calls that change the room",
        words: "Calls in groups after which the room is as before; a time is that of all calls of \
                a group. The columns are those of the single packet calls, so a test is made for \
                each call of a group. Drop, request: a connected route is dropped and its key asked \
                for again, so that both clients are told. Leave, arrive, requests: a client leaves \
                and all its peers are told; it arrives again and asks for all its keys, and is \
                connected again. Arrive, leave: a client without routes, in a room where the last \
                seat is empty.",
        rows_are: "room and calls",
        sides: &calls::SIDES,
        same_tests: calls::SAME_TESTS,
        rows,
    }
}

fn row(
    harness: &mut Harness,
    filling: &Filling,
    name: &str,
    rooms: &Rooms,
    groups: &Groups,
) -> Row {
    let times = calls::measure(harness, rooms, groups, groups.in_turn);
    Row::new(format!("{}: {name}", filling.name), times)
}
