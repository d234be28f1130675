//! A room in lent memory.
//!
//! ```text
//! room:  | seats (1 byte) | numbers (1 byte) | clock (8) | table of seats |
//! seat:  | key (32) | ping time (8) | outstanding ping (8) | table of routes |
//! route: | wanted key (32) |
//! ```
//!
//! Times and pings stand with their highest byte first. The place of a seat's
//! record is the seat, and the place of a route's record is its connection
//! number less 16. Nothing is read but the first 10 bytes and what the tables
//! list: the unused records and the bytes behind the room are no part of the
//! room.

use crate::room::{Room, Sizes, BASE};
use crate::seat::Seat;
use crate::table::{self, key_of, Table, KEY};

/// The bytes of a time or of a ping number.
const NUMBER: usize = 8;

/// Where the clock stands: behind the two sizes.
const CLOCK: usize = 2;
/// Where the table of seats starts.
const SEATS: usize = CLOCK + NUMBER;

/// Where the ping time stands in the record of a seat.
const PING_TIME: usize = KEY;
/// Where the outstanding ping stands in the record of a seat.
const OUTSTANDING: usize = PING_TIME + NUMBER;
/// Where the table of routes starts in the record of a seat.
const ROUTES: usize = OUTSTANDING + NUMBER;

/// Whether the memory holds a whole room of the base.
pub fn whole(memory: &[u8]) -> bool {
    whole_of(BASE, memory)
}

/// The room of the base that the memory holds; none exactly when not whole.
pub fn decode(memory: &[u8]) -> Option<Room> {
    decode_of(BASE, memory)
}

/// How many bytes a room of these sizes takes: 44,251 in the base.
pub fn length(sizes: Sizes) -> usize {
    SEATS + table::length(sizes.seats, seat_length(sizes))
}

/// Whether the memory holds a whole room of these sizes. A room has at most 40
/// seats, so none of more is whole.
pub fn whole_of(sizes: Sizes, memory: &[u8]) -> bool {
    if !sizes.right() || memory.len() < length(sizes) {
        return false;
    }
    if memory[..CLOCK] != [sizes.seats as u8, sizes.numbers as u8] {
        return false;
    }
    let seats = seats(sizes, memory);
    if !seats.whole() {
        return false;
    }
    let clock = number_at(memory, CLOCK);
    let listed = seats.listed();
    listed
        .iter()
        .all(|seat| seat_whole(sizes, clock, seats.record(*seat)))
}

/// The room of these sizes that the memory holds; none exactly when not whole.
pub fn decode_of(sizes: Sizes, memory: &[u8]) -> Option<Room> {
    if !whole_of(sizes, memory) {
        return None;
    }
    Some(listed_room(sizes, memory))
}

/// One memory that holds this whole room: what its tables do not list are zero
/// bytes. For a room where a seat names its own key, or a ping time is after the
/// clock, it is a memory that breaks this one rule and no other.
pub fn encode(room: &Room) -> Vec<u8> {
    let sizes = room.sizes();
    let records: Vec<Option<Vec<u8>>> = room
        .seats
        .iter()
        .map(|seat| seat.as_ref().map(encode_seat))
        .collect();
    let head = [sizes.seats as u8, sizes.numbers as u8];
    let seats = table::encode(&records, seat_length(sizes));
    [&head[..], &room.clock.to_be_bytes(), &seats].concat()
}

/// Whether the routes of a seat's record are whole and none names its own key,
/// and its ping time is not after the clock.
fn seat_whole(sizes: Sizes, clock: u64, seat: &[u8]) -> bool {
    let routes = routes(sizes, seat);
    routes.whole() && !routes.lists(&seat[..KEY]) && number_at(seat, PING_TIME) <= clock
}

/// The bytes of a seat's record: 1,105 in the base.
fn seat_length(sizes: Sizes) -> usize {
    ROUTES + table::length(sizes.numbers, KEY)
}

/// The table of seats of a memory that is long enough.
fn seats(sizes: Sizes, memory: &[u8]) -> Table<'_> {
    Table {
        bytes: &memory[SEATS..],
        places: sizes.seats,
        width: seat_length(sizes),
    }
}

/// The table of routes of a seat's record.
fn routes(sizes: Sizes, seat: &[u8]) -> Table<'_> {
    Table {
        bytes: &seat[ROUTES..],
        places: sizes.numbers,
        width: KEY,
    }
}

/// The room that the tables of the memory list, where each is whole, with the
/// clock before them.
fn listed_room(sizes: Sizes, memory: &[u8]) -> Room {
    let mut room = Room::empty(sizes);
    room.clock = number_at(memory, CLOCK);
    let seats = seats(sizes, memory);
    for seat in seats.listed() {
        room.seats[seat] = Some(decode_seat(sizes, seats.record(seat)));
    }
    room
}

/// A seat from its record, where the table of its routes is whole.
fn decode_seat(sizes: Sizes, record: &[u8]) -> Seat {
    let ping_time = number_at(record, PING_TIME);
    let mut seat = Seat::taken_by(&key_of(record), sizes.numbers, ping_time);
    seat.outstanding = number_at(record, OUTSTANDING);
    let routes = routes(sizes, record);
    for place in routes.listed() {
        seat.routes[place] = Some(key_of(routes.record(place)));
    }
    seat
}

/// The record of a seat.
fn encode_seat(seat: &Seat) -> Vec<u8> {
    let records: Vec<Option<Vec<u8>>> = seat
        .routes
        .iter()
        .map(|wanted| wanted.map(|key| key.to_vec()))
        .collect();
    let routes = table::encode(&records, KEY);
    let ping_time = seat.ping_time.to_be_bytes();
    let outstanding = seat.outstanding.to_be_bytes();
    [&seat.key[..], &ping_time, &outstanding, &routes].concat()
}

/// The time or the ping number that starts at this byte.
fn number_at(bytes: &[u8], start: usize) -> u64 {
    let mut number = [0; NUMBER];
    number.copy_from_slice(&bytes[start..start + NUMBER]);
    u64::from_be_bytes(number)
}

#[cfg(test)]
#[path = "memory_tests.rs"]
mod tests;
