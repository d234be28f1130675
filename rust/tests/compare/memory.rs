//! The room in lent memory: the test of a whole room, and the empty room.
//!
//! Rooms of made-up histories are encoded, what is no part of a room is filled
//! with random bytes, and then the memory is damaged, each time at one clause
//! of "whole". The second program's own decoder says what the test must answer.
//!
//! The memory's layout is known here from docs/ARCHITECTURE.md alone.

use crate::generator::Generator;
use crate::output::Output;
use crate::table::{Table, KEY};
use crate::tally::say;
use banavoge::raw;
use reference::generate::Generator as Histories;
use reference::memory;
use reference::room::{Room, BASE};

pub const ROOM_BYTES: usize = 44_251;

/// seats (1), numbers (1), clock (8), count (1), order (40), 40 records
const SEATS: usize = 40;
const CLOCK: usize = 2;
pub const SEATS_TABLE: usize = 10;
/// key (32), ping time (8), outstanding ping (8), table of routes
const SEAT_BYTES: usize = 1_105;
const PING_TIME_IN_SEAT: usize = 32;
const OUTSTANDING_IN_SEAT: usize = 40;
const ROUTES_IN_SEAT: usize = 48;
/// The bytes of a time or of a ping number.
const NUMBER: usize = 8;
/// count (1), order (32), 32 wanted keys
const NUMBERS: usize = 32;

/// How many rooms are damaged, each in every way.
const ROOMS: usize = 1_500;

const TABLE_OF_SEATS: Table = Table {
    start: SEATS_TABLE,
    places: SEATS,
    width: SEAT_BYTES,
};

pub fn table_of_routes(seat: usize) -> Table {
    Table {
        start: TABLE_OF_SEATS.record(seat) + ROUTES_IN_SEAT,
        places: NUMBERS,
        width: KEY,
    }
}

/// Where the ping time of a seat stands.
const fn ping_time(seat: usize) -> usize {
    TABLE_OF_SEATS.record(seat) + PING_TIME_IN_SEAT
}

/// Where the outstanding ping of a seat stands.
const fn outstanding(seat: usize) -> usize {
    TABLE_OF_SEATS.record(seat) + OUTSTANDING_IN_SEAT
}

/// The time or the ping number that stands at a place.
fn number_at(memory: &[u8], place: usize) -> u64 {
    let bytes = &memory[place..][..NUMBER];
    u64::from_be_bytes(bytes.try_into().expect("8 bytes"))
}

fn set_number(memory: &mut [u8], place: usize, number: u64) {
    memory[place..][..NUMBER].copy_from_slice(&number.to_be_bytes());
}

/// Puts back, from the memory before a tick, all that the tick may change: the
/// clock, which seats are taken, and the pings of those who were pinged.
pub fn restore_ticked(after: &mut [u8], before: &[u8], pinged: &[usize]) {
    let mut restore = |start: usize, length: usize| {
        after[start..][..length].copy_from_slice(&before[start..][..length]);
    };
    restore(CLOCK, NUMBER);
    restore(SEATS_TABLE, 1 + SEATS);
    for seat in pinged {
        restore(ping_time(*seat), NUMBER);
        restore(outstanding(*seat), NUMBER);
    }
}

/// Fills all that is no part of the room.
fn fill_what_is_not_read(memory: &mut [u8], random: &mut Generator) {
    for seat in TABLE_OF_SEATS.listed(memory) {
        table_of_routes(seat).fill_unlisted(memory, random);
    }
    TABLE_OF_SEATS.fill_unlisted(memory, random);
    random.fill(&mut memory[ROOM_BYTES..]);
}

/// The ways to damage a room. Those on a table are tried on the table of seats
/// and on a table of routes.
#[derive(Debug, Clone, Copy)]
pub enum Damage {
    Sound,
    FirstHeaderByte,
    SecondHeaderByte,
    OneByteShort,
    KeyTwice(Of),
    NeighboursSwapped(Of),
    PlaceTwice(Of),
    PlaceOutOfRange(Of),
    CountAboveLimit(Of),
    CountOneMore(Of),
    CountOneLess(Of),
    ByteOfKey(Of),
    LastByteOfKey(Of),
    OwnKeyNamed,
    OwnKeyNotListed,
    KeyOfAnotherNamed,
    PingTimeAfterClock,
    PingTimeUpToClock,
    PingTimeNotListed,
    ClockBeforePingTime,
    OtherOutstanding,
    BitAnywhere,
    BitInUse,
    RandomAllOver,
    RandomBehindHeader,
}

#[derive(Debug, Clone, Copy)]
pub enum Of {
    Seats,
    Routes,
}

use Damage::*;
use Of::*;

pub const DAMAGES: [Damage; 34] = [
    Sound,
    FirstHeaderByte,
    SecondHeaderByte,
    OneByteShort,
    KeyTwice(Seats),
    KeyTwice(Routes),
    NeighboursSwapped(Seats),
    NeighboursSwapped(Routes),
    PlaceTwice(Seats),
    PlaceTwice(Routes),
    PlaceOutOfRange(Seats),
    PlaceOutOfRange(Routes),
    CountAboveLimit(Seats),
    CountAboveLimit(Routes),
    CountOneMore(Seats),
    CountOneMore(Routes),
    CountOneLess(Seats),
    CountOneLess(Routes),
    ByteOfKey(Seats),
    ByteOfKey(Routes),
    LastByteOfKey(Seats),
    LastByteOfKey(Routes),
    OwnKeyNamed,
    OwnKeyNotListed,
    KeyOfAnotherNamed,
    PingTimeAfterClock,
    PingTimeUpToClock,
    PingTimeNotListed,
    ClockBeforePingTime,
    OtherOutstanding,
    BitAnywhere,
    BitInUse,
    RandomAllOver,
    RandomBehindHeader,
];

/// A listed seat, if the room has one: of some the one with most routes, so
/// that full tables come up too.
fn listed_seat(memory: &[u8], random: &mut Generator) -> Option<usize> {
    let seats = TABLE_OF_SEATS.listed(memory);
    let some: Vec<usize> = (0..3.min(seats.len()))
        .map(|_| random.pick(&seats))
        .collect();
    some.into_iter()
        .max_by_key(|seat| table_of_routes(*seat).count(memory))
}

/// The table that a damage is done to: of the routes, that of a listed seat,
/// if the room has one.
fn table(of: Of, memory: &[u8], random: &mut Generator) -> Option<Table> {
    match of {
        Seats => Some(TABLE_OF_SEATS),
        Routes => listed_seat(memory, random).map(table_of_routes),
    }
}

/// Does the damage; false where this room does not have what it takes.
pub fn damage(kind: Damage, memory: &mut Vec<u8>, random: &mut Generator) -> bool {
    match kind {
        Sound => true,
        FirstHeaderByte => change(&mut memory[0], random),
        SecondHeaderByte => change(&mut memory[1], random),
        OneByteShort => {
            memory.truncate(ROOM_BYTES - 1);
            true
        }
        OwnKeyNamed | OwnKeyNotListed | KeyOfAnotherNamed => match listed_seat(memory, random) {
            Some(seat) => damage_names(kind, seat, memory, random),
            None => false,
        },
        PingTimeAfterClock | PingTimeUpToClock | PingTimeNotListed | ClockBeforePingTime
        | OtherOutstanding => damage_times(kind, memory, random).is_some(),
        BitAnywhere => {
            let place = random.below(ROOM_BYTES);
            memory[place] ^= 1 << random.below(8);
            true
        }
        BitInUse => {
            let Some(table) = table(random.pick(&[Seats, Routes]), memory, random) else {
                return false;
            };
            let place = table.start + random.below(1 + table.count(memory));
            memory[place] ^= 1 << random.below(8);
            true
        }
        RandomAllOver => {
            random.fill(memory);
            true
        }
        RandomBehindHeader => {
            // Few seats and few routes, or no such room were ever whole.
            random.fill(&mut memory[2..]);
            memory[SEATS_TABLE] = random.below(3) as u8;
            for place in 1..=SEATS {
                memory[SEATS_TABLE + place] = random.below(SEATS + 1) as u8;
            }
            for seat in 0..SEATS {
                let routes = table_of_routes(seat);
                memory[routes.start] = random.below(3) as u8;
                for place in 0..NUMBERS {
                    memory[routes.order() + place] = random.below(NUMBERS + 1) as u8;
                }
            }
            true
        }
        KeyTwice(of)
        | NeighboursSwapped(of)
        | PlaceTwice(of)
        | PlaceOutOfRange(of)
        | CountAboveLimit(of)
        | CountOneMore(of)
        | CountOneLess(of)
        | ByteOfKey(of)
        | LastByteOfKey(of) => match table(of, memory, random) {
            Some(table) => damage_table(kind, table, memory, random),
            None => false,
        },
    }
}

fn damage_table(kind: Damage, table: Table, memory: &mut [u8], random: &mut Generator) -> bool {
    let count = table.count(memory);
    let listed = table.listed(memory);
    let order = table.order();
    match kind {
        CountAboveLimit(_) => {
            let above = 256 - table.places - 1;
            memory[table.start] = (table.places + 1 + random.below(above)) as u8;
            true
        }
        // What stands behind the count is random. There it is made a place,
        // often one that is not listed, and its key sometimes a high one.
        CountOneMore(_) => {
            memory[table.start] += 1;
            if count == table.places {
                return true;
            }
            let place = random.below(table.places);
            memory[order + count] = place as u8;
            if !listed.contains(&place) && random.below(2) == 0 {
                let key = table.record(place);
                memory[key..key + KEY].fill(0xff);
                // An empty seat has no pings and no routes that could be judged:
                // now it has an early ping time and a table that lists none.
                if table.width > KEY {
                    memory[key + ROUTES_IN_SEAT] = 0;
                    set_number(memory, key + PING_TIME_IN_SEAT, 0);
                }
            }
            true
        }
        _ if count == 0 => false,
        CountOneLess(_) => {
            memory[table.start] -= 1;
            true
        }
        PlaceOutOfRange(_) => {
            let place = order + random.below(count);
            let above = 256 - table.places;
            memory[place] = (table.places + random.below(above)) as u8;
            true
        }
        // Most changes of a first byte change the order; of a last byte, few.
        ByteOfKey(_) => {
            let key = table.record(random.pick(&listed));
            change(&mut memory[key + random.below(3)], random)
        }
        LastByteOfKey(_) => {
            let key = table.record(random.pick(&listed));
            change(&mut memory[key + KEY - 1], random)
        }
        _ if count == 1 => false,
        KeyTwice(_) => {
            // Neighbours, or any two.
            let from = random.below(count - 1);
            let to = match random.below(2) {
                0 => from + 1,
                _ => from + 1 + random.below(count - 1 - from),
            };
            let (from, to) = match random.below(2) {
                0 => (from, to),
                _ => (to, from),
            };
            let key = table.record(listed[from]);
            memory.copy_within(key..key + KEY, table.record(listed[to]));
            true
        }
        NeighboursSwapped(_) => {
            let first = order + random.below(count - 1);
            memory.swap(first, first + 1);
            true
        }
        PlaceTwice(_) => {
            let (from, to) = two_of(count, random);
            memory[order + to] = memory[order + from];
            true
        }
        _ => unreachable!("no damage of a table"),
    }
}

/// Puts a seat's key among the wanted keys of a seat. Each table keeps its own
/// rules, so that only whose key it is, and whether it is listed, decides.
fn damage_names(kind: Damage, seat: usize, memory: &mut [u8], random: &mut Generator) -> bool {
    let routes = table_of_routes(seat);
    let own = TABLE_OF_SEATS.key(memory, seat);
    match kind {
        OwnKeyNamed => {
            routes.list(memory, random.below(NUMBERS), &own);
            true
        }
        OwnKeyNotListed => {
            let listed = routes.listed(memory);
            let mut free: Vec<usize> = (0..NUMBERS).collect();
            free.retain(|place| !listed.contains(place));
            if free.is_empty() {
                return false;
            }
            routes.hide(memory, random.pick(&free), &own);
            true
        }
        KeyOfAnotherNamed => {
            let mut others = TABLE_OF_SEATS.listed(memory);
            others.retain(|other| *other != seat);
            if others.is_empty() {
                return false;
            }
            let another = TABLE_OF_SEATS.key(memory, random.pick(&others));
            routes.list(memory, random.below(NUMBERS), &another);
            true
        }
        _ => unreachable!("no damage of the names"),
    }
}

/// Sets a time or a ping number, and leaves all else, so that only which seat it
/// is of, and whether a ping time is after the clock, decides. None where this
/// room does not have what it takes.
fn damage_times(kind: Damage, memory: &mut [u8], random: &mut Generator) -> Option<()> {
    let clock = number_at(memory, CLOCK);
    let listed = TABLE_OF_SEATS.listed(memory);
    // By one, to the end, or anywhere between.
    let next = clock.checked_add(1);
    let any = clock.saturating_add(random.number() >> random.below(64));
    let after = next.map(|next| random.pick(&[next, u64::MAX, any.max(next)]));
    match kind {
        PingTimeAfterClock => {
            let seat = listed_seat(memory, random)?;
            set_number(memory, ping_time(seat), after?);
        }
        PingTimeUpToClock => {
            let seat = listed_seat(memory, random)?;
            let any = clock.min(random.number() >> random.below(64));
            set_number(memory, ping_time(seat), random.pick(&[0, clock, any]));
        }
        PingTimeNotListed => {
            let seat = (0..SEATS).find(|seat| !listed.contains(seat))?;
            set_number(memory, ping_time(seat), after?);
        }
        ClockBeforePingTime => {
            let times = listed
                .iter()
                .map(|seat| number_at(memory, ping_time(*seat)));
            let before = times.max()?.checked_sub(1)?;
            let any = before.min(random.number() >> random.below(64));
            set_number(memory, CLOCK, random.pick(&[0, before, any]));
        }
        OtherOutstanding => {
            let seat = listed_seat(memory, random)?;
            let any = random.number() >> random.below(64);
            set_number(
                memory,
                outstanding(seat),
                random.pick(&[0, 1, u64::MAX, any]),
            );
        }
        _ => unreachable!("no damage of the times"),
    }
    Some(())
}

/// Two different numbers below a bound.
fn two_of(bound: usize, random: &mut Generator) -> (usize, usize) {
    let first = random.below(bound);
    (first, (first + 1 + random.below(bound - 1)) % bound)
}

/// Changes a byte, by one or to any other.
fn change(byte: &mut u8, random: &mut Generator) -> bool {
    *byte = match random.below(3) {
        0 => byte.wrapping_add(1),
        1 => byte.wrapping_sub(1),
        _ => byte.wrapping_add(1 + random.below(255) as u8),
    };
    true
}

/// A room of a made-up history, in memory that is at least long enough, with
/// random bytes in all that is no part of the room.
pub fn memory_of(room: &Room, random: &mut Generator) -> Vec<u8> {
    let mut memory = memory::encode(room);
    assert_eq!(memory.len(), ROOM_BYTES);
    memory.resize(ROOM_BYTES + random.pick(&[0, 0, 1, 7, 300]), 0);
    fill_what_is_not_read(&mut memory, random);
    assert!(memory::decode(&memory).as_ref() == Some(room));
    memory
}

/// How often a kind of damage was done, and what the test answered.
#[derive(Default, Clone, Copy)]
struct Met {
    whole: u64,
    not_whole: u64,
}

/// Whether a damage leaves a room that is whole always, never or sometimes.
fn outcomes(kind: Damage) -> (bool, bool) {
    match kind {
        Sound | CountOneLess(_) | OwnKeyNotListed | KeyOfAnotherNamed | PingTimeUpToClock
        | PingTimeNotListed | OtherOutstanding => (true, false),
        FirstHeaderByte | SecondHeaderByte | OneByteShort | KeyTwice(_) | NeighboursSwapped(_)
        | PlaceTwice(_) | PlaceOutOfRange(_) | CountAboveLimit(_) | OwnKeyNamed
        | PingTimeAfterClock | ClockBeforePingTime | RandomAllOver => (false, true),
        CountOneMore(_) | ByteOfKey(_) | LastByteOfKey(_) | BitAnywhere | BitInUse
        | RandomBehindHeader => (true, true),
    }
}

/// Tests memory by both, and fails where they differ or a byte was changed. A
/// room is made from just the memory that holds one, and has its bytes. Answers
/// whether it is whole.
pub fn test_by_both(memory: &[u8], told: &str) -> bool {
    let whole = memory::whole(memory);
    let expected = if whole { 0 } else { -11 };
    let mut lent = Output::holding(memory, 0x66);
    let before = lent.clone();
    assert_eq!(raw::room::check(lent.lent()), expected, "{told}");
    assert!(lent == before, "{told}: the memory was changed");
    match banavoge::Room::from_bytes(memory) {
        Ok(room) => {
            assert!(whole, "{told}");
            assert!(room.as_bytes() == &memory[..ROOM_BYTES], "{told}");
        }
        Err(refusal) => assert_eq!(-i32::from(refusal.number()), expected, "{told}"),
    }
    whole
}

#[test]
fn the_test_of_a_room_is_the_second_programs() {
    let mut random = Generator::new(21);
    let mut met = [Met::default(); DAMAGES.len()];
    let mut checks = 0;
    let mut fullest = (0, 0);
    let mut histories = Histories::new(0, BASE);
    for made in 0..ROOMS {
        // By turns without ticks, so that the clock is 0, and with them.
        if made % 60 == 0 {
            histories = Histories::new(1_000 + made as u64, BASE);
        } else if made % 60 == 30 {
            histories = Histories::with_ticks(1_000 + made as u64, BASE);
        }
        // From the empty room on, then some calls further each time.
        for _ in 0..(made % 30).min(1) * (20 + random.below(80)) {
            histories.next();
        }
        let room = histories.room().clone();
        let sound = memory_of(&room, &mut random);
        fullest.0 = fullest.0.max(TABLE_OF_SEATS.count(&sound));
        for seat in TABLE_OF_SEATS.listed(&sound) {
            fullest.1 = fullest.1.max(table_of_routes(seat).count(&sound));
        }
        for (kind, met) in DAMAGES.iter().zip(&mut met) {
            let mut memory = sound.clone();
            if !damage(*kind, &mut memory, &mut random) {
                continue;
            }
            match test_by_both(&memory, &format!("{kind:?} of room {made}")) {
                true => met.whole += 1,
                false => met.not_whole += 1,
            }
            checks += 1;
        }
    }

    let mut text = format!("rooms tested: {checks} memories of {ROOMS} rooms\n");
    for (kind, met) in DAMAGES.iter().zip(&met) {
        let kind = format!("{kind:?}");
        text += &format!(
            "  {kind}: {} whole, {} not whole\n",
            met.whole, met.not_whole
        );
    }
    say(&text);
    assert!(checks >= 20_000, "only {checks} checks");
    assert_eq!(fullest, (SEATS, NUMBERS), "no full room, or no full table");
    for (kind, met) in DAMAGES.iter().zip(&met) {
        let (whole, not_whole) = outcomes(*kind);
        assert_eq!(met.whole > 0, whole, "{kind:?} whole: {}", met.whole);
        assert_eq!(met.not_whole > 0, not_whole, "{kind:?}: {}", met.not_whole);
    }
}

/// Every length short of a room is not whole, and nothing behind it is read.
#[test]
fn memory_too_short_is_no_room() {
    let mut random = Generator::new(22);
    let mut histories = Histories::new(7, BASE);
    histories.nth(500);
    let memory = memory_of(histories.room(), &mut random);
    for length in (0..100).chain((100..ROOM_BYTES).step_by(97)) {
        assert_eq!(raw::room::check(&memory[..length]), -11, "{length} bytes");
        assert!(!memory::whole(&memory[..length]));
    }
    assert_eq!(raw::room::check(&memory[..ROOM_BYTES - 1]), -11);
    assert_eq!(raw::room::check(&memory[..ROOM_BYTES]), 0);
}

#[test]
fn the_size_of_a_room_is_the_second_programs() {
    assert_eq!(raw::room::bytes(), memory::length(BASE));
    assert_eq!(raw::room::bytes(), ROOM_BYTES);
    assert_eq!(banavoge::Room::BYTES, ROOM_BYTES);
    assert_eq!(banavoge::Room::SEATS, BASE.seats);
    assert_eq!(banavoge::Room::NUMBERS, BASE.numbers);
}

/// The empty room is eleven bytes; memory too short is left alone.
#[test]
fn the_empty_room_is_written() {
    for length in [0, 1, 2, 3, 10, 11, 44_250, ROOM_BYTES, 44_252, 50_000] {
        for salt in [0, 1, 0x5a, 0xff] {
            let mut found = Output::new(length, salt);
            let mut expected = found.clone();
            let answer = raw::room::empty(found.lent());
            if length < ROOM_BYTES {
                assert_eq!(answer, -10, "{length} bytes");
            } else {
                assert_eq!(answer, 0, "{length} bytes");
                expected.lent()[..11].copy_from_slice(&[40, 32, 0, 0, 0, 0, 0, 0, 0, 0, 0]);
            }
            assert!(
                found == expected,
                "{length} bytes: the memory differs first at {}",
                found.first_difference(&expected)
            );
            if length >= ROOM_BYTES {
                assert_eq!(raw::room::check(found.lent()), 0);
                assert_eq!(memory::decode(found.lent()), Some(Room::empty(BASE)));
            }
        }
    }
}
