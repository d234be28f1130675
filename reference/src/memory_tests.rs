//! Rooms in lent memory: there and back, and every kind of damage.

use super::*;
use crate::key::Key;
use crate::random::Random;
use crate::room::LEAST_OUTPUT;

/// Where the table of seats starts: its count, then its order.
const SEATS: usize = 10;

/// Where the record of a seat starts, in the base.
fn seat_at(seat: usize) -> usize {
    SEATS + 1 + 40 + seat * 1_105
}

/// Where the ping time of a seat starts, and behind it the outstanding ping.
fn pings_at(seat: usize) -> usize {
    seat_at(seat) + 32
}

/// Where the table of routes of a seat starts: its count, then its order.
fn routes_at(seat: usize) -> usize {
    pings_at(seat) + 8 + 8
}

/// Where the wanted key of a route starts.
fn route_at(seat: usize, place: usize) -> usize {
    routes_at(seat) + 1 + 32 + place * 32
}

/// Keys whose order is not that of their arrival: 0 is in the middle.
fn key(number: u8) -> Key {
    let mut key = [0x80; 32];
    key[0] = 0x80 ^ number.wrapping_mul(0x2b);
    key[31] = number;
    key
}

/// The clock of `room()`, and what its seats were last pinged with.
const TIME: u64 = 0x0102_0304_0506_0708;
const PING: u64 = 0x1112_1314_1516_1718;

/// Six clients; seat 4 is empty again, and seats 1 and 3 have routes with a gap
/// and name each other. Each has a ping time of its own, up to the clock, and
/// those in even seats owe a pong.
fn room() -> Room {
    let mut room = Room::empty(BASE);
    for number in 0..6 {
        room.arrive(&key(number), LEAST_OUTPUT).unwrap();
    }
    for (seat, other) in [(1, 3), (3, 1)] {
        for number in [9, other, 5, 8, 2] {
            let request = [&[0], &key(number)[..]].concat();
            room.packet(seat, &request, LEAST_OUTPUT).unwrap();
        }
        room.packet(seat, &[3, 18], LEAST_OUTPUT).unwrap();
    }
    room.leave(4, LEAST_OUTPUT).unwrap();
    room.clock = TIME;
    for (seat, client) in room.seats.iter_mut().enumerate() {
        let Some(client) = client else { continue };
        client.ping_time = TIME - seat as u64;
        client.outstanding = PING * (1 - seat as u64 % 2);
    }
    room
}

/// A room of the base with every seat taken and every number held.
fn full_room() -> Room {
    let mut room = Room::empty(BASE);
    for number in 0..40 {
        room.arrive(&key(number), LEAST_OUTPUT).unwrap();
    }
    for seat in 0..40 {
        for number in 100..132 {
            let request = [&[0], &key(number)[..]].concat();
            room.packet(seat, &request, LEAST_OUTPUT).unwrap();
        }
    }
    room
}

/// The memory is not whole, and so nothing is read from it.
fn refused(memory: &[u8]) {
    assert!(!whole(memory));
    assert_eq!(decode(memory), None);
}

/// The memory of `room()` with some bytes changed.
fn damaged(change: impl Fn(&mut Vec<u8>)) -> Vec<u8> {
    let mut memory = encode(&room());
    change(&mut memory);
    assert_ne!(memory, encode(&room()));
    memory
}

/// The whole memory with every byte that is no part of the room set to zero.
fn settled(sizes: Sizes, memory: &[u8]) -> Vec<u8> {
    laid_over(sizes, memory, &vec![0; length(sizes)])
}

/// The bytes of `under`, but those that are part of the room from `memory`,
/// which is whole.
fn laid_over(sizes: Sizes, memory: &[u8], under: &[u8]) -> Vec<u8> {
    let mut laid = under.to_vec();
    let mut lay = |from: usize, count: usize| {
        laid[from..from + count].copy_from_slice(&memory[from..from + count]);
    };
    let width = 48 + 1 + sizes.numbers * 33;
    let seated = usize::from(memory[10]);
    lay(0, 11 + seated);
    for seat in &memory[11..11 + seated] {
        let start = 11 + sizes.seats + usize::from(*seat) * width;
        let routes = start + 48;
        let listed = usize::from(memory[routes]);
        lay(start, 48);
        lay(routes, 1 + listed);
        for place in &memory[routes + 1..routes + 1 + listed] {
            lay(routes + 1 + sizes.numbers + usize::from(*place) * 32, 32);
        }
    }
    laid
}

#[test]
fn the_layout_is_the_one_told() {
    assert_eq!(length(BASE), 44_251);
    assert_eq!(seat_length(BASE), 1_105);
    assert_eq!(seat_at(40), 44_251);
    let memory = encode(&room());
    assert_eq!(memory.len(), 44_251);
    assert_eq!(memory[..11], [40, 32, 1, 2, 3, 4, 5, 6, 7, 8, 5]);
    assert_eq!(memory[seat_at(3)..seat_at(3) + 32], key(3));
    let pings = &memory[pings_at(3)..routes_at(3)];
    assert_eq!(pings, [1, 2, 3, 4, 5, 6, 7, 5, 0, 0, 0, 0, 0, 0, 0, 0]);
    let outstanding = &memory[pings_at(2) + 8..routes_at(2)];
    assert_eq!(
        outstanding,
        [0x11, 0x12, 0x13, 0x14, 0x15, 0x16, 0x17, 0x18]
    );
    assert_eq!(memory[routes_at(3)], 4);
    assert_eq!(memory[route_at(3, 4)..route_at(3, 4) + 32], key(2));
}

#[test]
fn decoding_gives_the_encoded_room_back() {
    let sizes = Sizes {
        seats: 3,
        numbers: 2,
    };
    for room in [room(), full_room(), Room::empty(BASE), Room::empty(sizes)] {
        let memory = encode(&room);
        assert_eq!(memory.len(), length(room.sizes()));
        assert!(whole_of(room.sizes(), &memory));
        assert_eq!(decode_of(room.sizes(), &memory), Some(room.clone()));
        assert_eq!(settled(room.sizes(), &memory), memory);
    }
    assert!(whole(&encode(&room())));
    assert_eq!(decode(&encode(&room())), Some(room()));
}

#[test]
fn the_empty_room_is_two_sizes_and_zero_bytes() {
    let memory = encode(&Room::empty(BASE));
    assert_eq!(memory[..2], [40, 32]);
    assert!(memory[2..].iter().all(|byte| *byte == 0));
}

#[test]
fn memory_one_byte_short_is_not_whole_and_longer_memory_is() {
    let memory = encode(&room());
    for length in [0, 1, 2, 3, 9, 10, 11, 44_250] {
        refused(&memory[..length]);
    }
    let longer = [&memory[..], &[0xff; 100]].concat();
    assert_eq!(decode(&longer), Some(room()));
}

#[test]
fn a_room_has_at_most_40_seats() {
    let sizes = |seats| Sizes { seats, numbers: 1 };
    let forty = encode(&Room::empty(sizes(40)));
    assert!(whole_of(sizes(40), &forty));
    let mut more = forty.clone();
    more.resize(length(sizes(41)), 0);
    more[0] = 41;
    assert!(!whole_of(sizes(41), &more));
    assert_eq!(decode_of(sizes(41), &more), None);
}

#[test]
fn wrong_first_bytes_are_not_whole() {
    for value in (0..=255).filter(|value| *value != 40) {
        refused(&damaged(|memory| memory[0] = value));
    }
    for value in (0..=255).filter(|value| *value != 32) {
        refused(&damaged(|memory| memory[1] = value));
    }
}

#[test]
fn a_seats_key_copied_over_anothers_is_not_whole() {
    for (from, to) in [(0, 1), (5, 0), (3, 2), (2, 3)] {
        refused(&damaged(|memory| {
            memory.copy_within(seat_at(from)..seat_at(from) + 32, seat_at(to));
        }));
    }
}

#[test]
fn a_wanted_key_doubled_is_not_whole() {
    for (from, to) in [(0, 1), (1, 0), (3, 4), (4, 0)] {
        refused(&damaged(|memory| {
            memory.copy_within(route_at(1, from)..route_at(1, from) + 32, route_at(1, to));
        }));
    }
}

#[test]
fn two_neighbours_of_an_order_swapped_are_not_whole() {
    for first in 0..4 {
        let place = SEATS + 1 + first;
        refused(&damaged(|memory| memory.swap(place, place + 1)));
    }
    for first in 0..3 {
        let place = routes_at(3) + 1 + first;
        refused(&damaged(|memory| memory.swap(place, place + 1)));
    }
}

#[test]
fn a_place_listed_twice_is_not_whole() {
    for first in 0..4 {
        let place = SEATS + 1 + first;
        refused(&damaged(|memory| memory[place] = memory[place + 1]));
        refused(&damaged(|memory| memory[place + 1] = memory[place]));
    }
    for first in 0..3 {
        let place = routes_at(1) + 1 + first;
        refused(&damaged(|memory| memory[place] = memory[place + 1]));
        refused(&damaged(|memory| memory[place + 1] = memory[place]));
    }
}

#[test]
fn a_place_out_of_range_is_not_whole() {
    for value in 40..=255 {
        for listed in 0..5 {
            refused(&damaged(|memory| memory[SEATS + 1 + listed] = value));
        }
    }
    for value in 32..=255 {
        for listed in 0..4 {
            refused(&damaged(|memory| memory[routes_at(3) + 1 + listed] = value));
        }
    }
}

#[test]
fn a_count_above_its_limit_is_not_whole() {
    for count in 41..=255 {
        refused(&damaged(|memory| memory[SEATS] = count));
    }
    for count in 33..=255 {
        refused(&damaged(|memory| memory[routes_at(1)] = count));
    }
    let full = encode(&full_room());
    for (place, count) in [(SEATS, 41), (routes_at(0), 33), (routes_at(39), 33)] {
        let mut memory = full.clone();
        memory[place] = count;
        refused(&memory);
    }
}

#[test]
fn a_count_one_too_many_is_not_whole() {
    // The byte behind the order is 0. Place 0 is used in both tables, and a
    // key does not come behind itself or the ones above it.
    refused(&damaged(|memory| memory[SEATS] += 1));
    refused(&damaged(|memory| memory[routes_at(1)] += 1));
    refused(&damaged(|memory| memory[routes_at(3)] += 1));
}

#[test]
fn a_count_one_too_few_is_another_whole_room() {
    let memory = damaged(|memory| memory[SEATS] -= 1);
    let last = usize::from(memory[SEATS + 5]);
    let mut smaller = room();
    smaller.seats[last] = None;
    assert_eq!(decode(&memory), Some(smaller));
}

#[test]
fn the_routes_of_every_listed_seat_are_tested() {
    let full = encode(&full_room());
    for seat in 0..40 {
        let mut memory = full.clone();
        memory.swap(routes_at(seat) + 31, routes_at(seat) + 32);
        refused(&memory);
    }
}

/// One client in this seat, with one route at this place that names this key.
fn one_route(seat: usize, place: usize, wanted: Key) -> Room {
    let mut room = Room::empty(BASE);
    room.seats[seat] = Some(Seat::taken_by(&key(0), BASE.numbers, 0));
    room.seats[seat].as_mut().unwrap().routes[place] = Some(wanted);
    room
}

/// The routes of a seat that names so many keys: this one, so many lower ones,
/// and for the rest higher ones. The highest has the lowest number.
fn routes_for(key: Key, count: usize, lower: usize) -> Vec<Option<Key>> {
    let like = |byte: u8, place: usize| {
        let mut key = [byte; 32];
        key[31] = place as u8;
        key
    };
    let lowest = (0..lower).map(|place| like(0x00, place));
    let highest = (lower + 1..count).map(|place| like(0xff, place));
    let rising = lowest.chain([key]).chain(highest);
    let mut routes: Vec<Option<Key>> = rising.rev().map(Some).collect();
    routes.resize(BASE.numbers, None);
    routes
}

/// The room is not whole, for a seat names its own key, or for its ping time; its
/// tables are whole.
fn refused_though_tables_are_whole(room: &Room) {
    let memory = encode(room);
    assert!(!room.whole());
    assert!(tables_whole(BASE, &memory));
    assert_eq!(listed_room(BASE, &memory), *room);
    refused(&memory);
}

/// The room is whole and is read back from its memory.
fn read_back(room: &Room) {
    assert!(room.whole());
    assert_eq!(decode(&encode(room)).as_ref(), Some(room));
}

/// Whether every table of a memory with good first bytes is whole.
fn tables_whole(sizes: Sizes, memory: &[u8]) -> bool {
    let seats = seats(sizes, memory);
    let routes_whole = |seat: &usize| routes(sizes, seats.record(*seat)).whole();
    seats.whole() && seats.listed().iter().all(routes_whole)
}

#[test]
fn one_seat_with_one_route_for_its_own_key_is_not_whole() {
    for seat in 0..40 {
        for place in 0..32 {
            read_back(&one_route(seat, place, key(1)));
            refused_though_tables_are_whole(&one_route(seat, place, key(0)));
            // The same by damage: the seat's key copied over the wanted one, and
            // the wanted key over the seat's.
            let (own, wanted) = (seat_at(seat), route_at(seat, place));
            for (from, to) in [(own, wanted), (wanted, own)] {
                let mut memory = encode(&one_route(seat, place, key(1)));
                memory.copy_within(from..from + 32, to);
                refused(&memory);
            }
        }
    }
}

#[test]
fn the_own_key_is_found_at_every_place_of_the_order() {
    let mut room = room();
    for count in 1..=32 {
        for lower in 0..count {
            room.seats[0].as_mut().unwrap().routes = routes_for(key(0), count, lower);
            let listed = usize::from(encode(&room)[routes_at(0) + 1 + lower]);
            assert_eq!(listed, count - 1 - lower);
            refused_though_tables_are_whole(&room);
            // In the same way the key of another seat, and one of nobody.
            for number in [1, 4] {
                room.seats[0].as_mut().unwrap().routes = routes_for(key(number), count, lower);
                read_back(&room);
            }
        }
    }
}

#[test]
fn a_full_room_where_any_seat_names_its_own_key_is_not_whole() {
    let full = full_room();
    read_back(&full);
    for seat in 0..40 {
        for lower in [0, 1, 16, 30, 31] {
            let mut room = full.clone();
            room.seats[seat].as_mut().unwrap().routes = routes_for(key(seat as u8), 32, lower);
            refused_though_tables_are_whole(&room);
            // In the same way the key of another seat.
            let other = key((seat as u8 + 1) % 40);
            room.seats[seat].as_mut().unwrap().routes = routes_for(other, 32, lower);
            read_back(&room);
        }
    }
}

#[test]
fn a_room_where_every_seat_names_its_own_key_is_not_whole() {
    let mut room = full_room();
    let keys: Vec<Key> = room.seats.iter().flatten().map(|seat| seat.key).collect();
    for (seat, key) in room.seats.iter_mut().flatten().zip(keys.iter()) {
        seat.routes[7] = Some(*key);
    }
    refused_though_tables_are_whole(&room);
    // Each names the seat above it, and the last names the first.
    let above = keys.iter().cycle().skip(1);
    for (seat, key) in room.seats.iter_mut().flatten().zip(above) {
        seat.routes[7] = Some(*key);
    }
    read_back(&room);
}

#[test]
fn a_seat_that_names_a_key_one_bit_from_its_own_is_whole() {
    for bit in 0..256 {
        let mut near = key(0);
        near[bit / 8] ^= 1 << (bit % 8);
        read_back(&one_route(0, 0, near));
    }
}

#[test]
fn the_own_key_where_it_is_not_listed_is_no_part_of_the_room() {
    let mut memory = encode(&room());
    let before = memory.clone();
    // A free route between held ones, one of a seat without routes, and an
    // empty seat with the record of one that names itself.
    memory.copy_within(seat_at(1)..seat_at(1) + 32, route_at(1, 2));
    memory.copy_within(seat_at(0)..seat_at(0) + 32, route_at(0, 0));
    let itself = encode(&one_route(4, 0, key(0)));
    memory[seat_at(4)..seat_at(5)].copy_from_slice(&itself[seat_at(4)..seat_at(5)]);
    assert_ne!(memory, before);
    assert_eq!(decode(&memory), Some(room()));
    assert_eq!(settled(BASE, &memory), before);
    // The only place of an order, with a count of 0.
    let mut memory = encode(&one_route(0, 0, key(0)));
    refused(&memory);
    memory[routes_at(0)] = 0;
    assert!(whole(&memory));
}

#[test]
fn what_is_not_listed_is_no_part_of_the_room() {
    let mut memory = encode(&room());
    let before = memory.clone();
    // The rest of both orders, an empty seat, a free route.
    memory[SEATS + 6..seat_at(0)].fill(0xff);
    memory[routes_at(1) + 5..route_at(1, 0)].fill(0xff);
    memory[seat_at(4)..seat_at(5)].fill(0xff);
    memory[seat_at(6)..].fill(0xff);
    memory[route_at(1, 2)..route_at(1, 3)].fill(0xff);
    assert_ne!(memory, before);
    assert!(whole(&memory));
    assert_eq!(decode(&memory), Some(room()));
    assert_eq!(settled(BASE, &memory), before);
}

/// The memory of `room()` with this number at this place.
fn with_number(place: usize, number: u64) -> Vec<u8> {
    let mut memory = encode(&room());
    memory[place..place + 8].copy_from_slice(&number.to_be_bytes());
    memory
}

#[test]
fn a_ping_time_after_the_clock_is_not_whole() {
    let after = [1, 2, 256, 1 << 32, 1 << 56, u64::MAX - TIME];
    let before = [0, 1, 8, 9, 256, 1 << 32, 1 << 56, TIME];
    for seat in [0, 1, 2, 3, 5] {
        let mut room = room();
        for more in after {
            refused(&with_number(pings_at(seat), TIME + more));
            room.seats[seat].as_mut().unwrap().ping_time = TIME + more;
            refused_though_tables_are_whole(&room);
        }
        for less in before {
            room.seats[seat].as_mut().unwrap().ping_time = TIME - less;
            assert_eq!(encode(&room), with_number(pings_at(seat), TIME - less));
            read_back(&room);
        }
    }
    // The same by the clock. The latest ping time is that of seat 0.
    for less in [1, 2, 256, TIME] {
        refused(&with_number(CLOCK, TIME - less));
    }
    for more in after {
        let mut room = room();
        room.clock = TIME + more;
        assert_eq!(encode(&room), with_number(CLOCK, TIME + more));
        read_back(&room);
    }
}

#[test]
fn the_ping_time_of_every_listed_seat_is_tested() {
    let mut full = full_room();
    full.clock = 600;
    read_back(&full);
    for seat in 0..40 {
        for (time, is_whole) in [(599, true), (600, true), (601, false)] {
            let mut room = full.clone();
            room.seats[seat].as_mut().unwrap().ping_time = time;
            match is_whole {
                true => read_back(&room),
                false => refused_though_tables_are_whole(&room),
            }
        }
    }
}

#[test]
fn any_outstanding_ping_is_whole() {
    for seat in [0, 1, 2, 3, 5] {
        for ping in [0, 1, 256, TIME + 1, u64::MAX] {
            let mut room = room();
            room.seats[seat].as_mut().unwrap().outstanding = ping;
            assert_eq!(encode(&room), with_number(pings_at(seat) + 8, ping));
            read_back(&room);
        }
    }
}

#[test]
fn the_pings_of_an_empty_seat_are_no_part_of_the_room() {
    for seat in [4, 6, 39] {
        let mut memory = encode(&room());
        memory[pings_at(seat)..routes_at(seat)].fill(0xff);
        assert_eq!(decode(&memory), Some(room()));
    }
}

/// Copies the key of a seat over a wanted key of that seat or of another, and
/// lists that route alone.
fn copy_a_key_over_a_wanted_one(sizes: Sizes, memory: &mut [u8], random: &mut Random) {
    let start = |seat: usize| 11 + sizes.seats + seat * seat_length(sizes);
    let from = start(random.below(sizes.seats));
    let routes = start(random.below(sizes.seats)) + 48;
    let place = random.below(sizes.numbers);
    memory[routes] = 1;
    memory[routes + 1] = place as u8;
    memory.copy_within(from..from + 32, routes + 1 + sizes.numbers + place * 32);
}

/// What is read from whole memory is a whole room, whose own memory is the one
/// read but for the bytes that are no part of the room. Where the tables are
/// whole and the memory is not, a seat names its own key or has a ping time
/// after the clock. Small rooms and few different bytes, so that damaged memory
/// is often whole all the same.
#[test]
fn whole_memory_is_the_memory_of_the_room_read() {
    let sizes = Sizes {
        seats: 3,
        numbers: 2,
    };
    let mut random = Random::new(1);
    let (mut tables_damaged, mut names_itself, mut pinged_later, mut met_whole) = (0, 0, 0, 0);
    for _ in 0..100_000 {
        let mut memory: Vec<u8> = vec![0; length(sizes)];
        // Small bytes, so that counts and places are often in range; and often
        // few that are not 0, so that keys are often equal.
        let chance = random.one_of(&[3, 10, 30]).unwrap();
        for byte in &mut memory {
            *byte = random.below(3) as u8 * u8::from(random.percent(chance));
        }
        memory[..2].copy_from_slice(&[3, 2]);
        memory[10] = random.below(4) as u8;
        if random.percent(70) {
            // A clock that no ping time is after.
            memory[2] = 3;
        }
        if random.percent(50) {
            copy_a_key_over_a_wanted_one(sizes, &mut memory, &mut random);
        }
        let read = decode_of(sizes, &memory);
        assert_eq!(read.is_some(), whole_of(sizes, &memory));
        if let Some(room) = read {
            assert!(room.whole());
            assert_eq!(encode(&room), settled(sizes, &memory));
            met_whole += 1;
        } else if tables_whole(sizes, &memory) {
            let room = listed_room(sizes, &memory);
            assert!(!room.whole());
            let mut clients = room.seats.iter().flatten();
            if clients.clone().any(Seat::names_itself) {
                names_itself += 1;
            } else {
                assert!(clients.any(|client| client.ping_time > room.clock));
                pinged_later += 1;
            }
        } else {
            tables_damaged += 1;
        }
    }
    let met = [tables_damaged, names_itself, pinged_later, met_whole];
    assert!(met.iter().all(|count| *count > 1_000), "{met:?}");
}

/// Every room is read from its memory, whatever the bytes that are no part of
/// it hold.
#[test]
fn a_room_is_read_over_any_other_bytes() {
    let mut random = Random::new(2);
    for room in [room(), full_room(), Room::empty(BASE)] {
        let memory = encode(&room);
        for _ in 0..20 {
            let under = random.bytes(length(BASE) + random.clone().below(100));
            let laid = laid_over(BASE, &memory, &under);
            assert_eq!(decode(&laid), Some(room.clone()));
            assert_eq!(settled(BASE, &laid), memory);
        }
    }
}
