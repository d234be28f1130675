//! Rooms in lent memory where a seat names its own key. By request 02 of
//! document 02 they are not whole, and every call on one, with output long
//! enough, is refused with 11.
//!
//! Beside each stand rooms that differ from it in that alone: the route names
//! the key of another seat, of nobody or one near the own, or the own key is
//! not listed. They are whole. The second program says what the test and each
//! call must answer.

use crate::memory::{table_of_routes, test_by_both};
use crate::outcome::{expected, make};
use crate::output::Output;
use crate::relay::written;
use crate::tally::{say, Tally};
use reference::call::Call;
use reference::key::Key;
use reference::lent;
use reference::memory;
use reference::refusal::Refusal;
use reference::room::{Room, BASE};
use reference::seat::Seat;

/// A key that no client of these rooms has.
const NOBODY: Key = [0x80; 32];

/// Whose key a route names, or has without being listed.
#[derive(Debug, Clone, Copy, PartialEq, Eq)]
enum Named {
    Own,
    OwnNotListed,
    Another,
    Nobody,
    Near,
}

const NAMED: [Named; 5] = [
    Named::Own,
    Named::OwnNotListed,
    Named::Another,
    Named::Nobody,
    Named::Near,
];

/// How many routes a seat has, and how many of them name lower keys: the key is
/// the first of its order, in the middle or the last, on one route, on some and
/// on a full table.
const ORDERS: [(usize, usize); 7] = [(1, 0), (3, 0), (3, 1), (3, 2), (32, 0), (32, 16), (32, 31)];

/// A room in which one seat has routes, and one of these the key in question.
#[derive(Debug, Clone, Copy)]
pub struct Case {
    clients: usize,
    seat: usize,
    routes: usize,
    lower: usize,
    /// Whether the lowest key has the highest number; else it has the lowest.
    falling: bool,
    named: Named,
}

/// Every case: one client, two, and a full room; its first seat, one in the
/// middle and the last. And the own key at each place of a full table.
pub fn cases() -> Vec<Case> {
    let mut cases = Vec::new();
    for (clients, seat) in [(1, 0), (2, 0), (2, 1), (40, 0), (40, 20), (40, 39)] {
        for (routes, lower) in ORDERS {
            for falling in [false, true] {
                cases.extend(NAMED.map(|named| Case {
                    clients,
                    seat,
                    routes,
                    lower,
                    falling,
                    named,
                }));
            }
        }
    }
    // A client that is alone has no other beside it.
    cases.retain(|case| case.clients > 1 || case.named != Named::Another);
    cases.extend((0..BASE.numbers).map(|lower| Case {
        clients: 40,
        seat: 20,
        routes: BASE.numbers,
        lower,
        falling: false,
        named: Named::Own,
    }));
    cases
}

fn client(seat: usize) -> Key {
    [0x40 + seat as u8; 32]
}

/// Below the key of every client, or above.
fn stranger(first: u8, last: usize) -> Key {
    let mut key = [first; 32];
    key[31] = last as u8;
    key
}

/// The key that differs in the last bit alone.
fn near(mut key: Key) -> Key {
    key[31] ^= 1;
    key
}

impl Case {
    pub fn is_whole(self) -> bool {
        self.named != Named::Own
    }

    fn key(self) -> Key {
        match self.named {
            Named::Own | Named::OwnNotListed => client(self.seat),
            Named::Another => client((self.seat + 1) % self.clients),
            Named::Nobody => NOBODY,
            Named::Near => near(client(self.seat)),
        }
    }

    /// The keys that the seat wants, by their numbers.
    fn wanted(self) -> Vec<Option<Key>> {
        let lower = (0..self.lower).map(|last| stranger(0x00, last));
        let higher = (self.lower + 1..self.routes).map(|last| stranger(0xff, last));
        let rising = lower.chain([self.key()]).chain(higher);
        let mut wanted: Vec<Option<Key>> = rising.map(Some).collect();
        wanted.resize(BASE.numbers, None);
        if self.falling {
            wanted.reverse();
        }
        wanted
    }

    pub fn memory(self) -> Vec<u8> {
        let mut wanted = self.wanted();
        let named = wanted.iter().position(|key| *key == Some(self.key()));
        let place = named.expect("a route with the key");
        if self.named == Named::OwnNotListed {
            wanted[place] = None;
        }
        let mut room = Room::empty(BASE);
        for seat in 0..self.clients {
            room.seats[seat] = Some(Seat::taken_by(&client(seat), BASE.numbers, 0));
        }
        if let Some(seat) = &mut room.seats[self.seat] {
            seat.routes = wanted;
        }
        let mut memory = memory::encode(&room);
        if self.named == Named::OwnNotListed {
            table_of_routes(self.seat).hide(&mut memory, place, &self.key());
        }
        memory
    }

    /// Calls of every kind, most by the seat: accepted in a whole room, or
    /// refused with 1 and with each of 3 to 9.
    pub fn calls(self) -> Vec<Call> {
        let seat = self.seat as u8;
        let packet = |kind: u8, rest: &[u8]| Call::Packet {
            seat,
            bytes: [&[kind], rest].concat(),
        };
        let own = client(self.seat);
        let number = if self.falling { 47 } else { 16 };
        let none = Call::Packet {
            seat,
            bytes: Vec::new(),
        };
        vec![
            packet(0, &own),
            packet(0, &self.key()),
            packet(0, &stranger(0x90, 0)),
            packet(4, &[0, 0, 0, 0, 0, 0, 0, 9]),
            packet(5, &[0, 0, 0, 0, 0, 0, 0, 9]),
            packet(6, &[&own[..], b"a"].concat()),
            packet(number, b"a"),
            packet(255, b"a"),
            packet(4, &[0; 8]),
            packet(16, &[]),
            packet(1, &own),
            none,
            packet(3, &[number]),
            Call::Arrive { key: own },
            Call::Arrive {
                key: stranger(0x90, 1),
            },
            Call::Leave { seat: 40 },
            Call::Leave { seat },
        ]
    }
}

/// Ticks, which have no stored form: one that pings all, one that does nothing,
/// and one that is refused with 7.
fn ticks() -> [Call; 3] {
    [(30, 9), (0, 9), (30, 0)].map(|(time, ping)| Call::Tick { time, ping })
}

/// Makes a call on lent memory by both. They must answer the same and write the
/// same output; after a refusal every byte is as before. Answers the refusal.
pub fn make_by_both(memory: &[u8], call: &Call, output: usize, told: &str) -> Result<(), Refusal> {
    let mut room = Output::holding(memory, 0x44);
    let mut out = Output::new(output, 0x33);
    let (before, out_before) = (room.clone(), out.clone());
    let found = make(call, room.lent(), out.lent());
    let answer = lent::make(BASE, memory, call, output);
    match &answer {
        Ok((after, _)) => {
            let held = memory::decode(room.lent());
            assert!(held.as_ref() == Some(after), "{told}: the room");
        }
        Err(_) => assert!(room == before, "{told}: the memory was changed"),
    }
    let answer = answer.map(|(_, accepted)| accepted);
    assert_eq!(found, expected(call, &answer), "{told}");
    assert!(out == written(&out_before, &answer), "{told}: the output");
    answer.map(|_| ())
}

/// The answers to calls on rooms that are not whole, and on whole rooms beside
/// them.
pub struct Made {
    pub refused: Tally,
    pub beside: Tally,
}

impl Made {
    pub fn new() -> Self {
        let (refused, beside) = (Tally::new(), Tally::new());
        Self { refused, beside }
    }

    /// Makes each call on the memory by both. Where it holds no whole room, the
    /// answer is 11; with output too short it is 10, which comes first.
    pub fn make_each(
        &mut self,
        memory: &[u8],
        is_whole: bool,
        calls: impl IntoIterator<Item = Call>,
        told: &str,
    ) {
        for call in calls {
            let told = format!("{told}: {call:?}");
            let answer = make_by_both(memory, &call, call.least_output(), &told);
            if is_whole {
                self.beside.add(&answer);
                continue;
            }
            assert_eq!(answer, Err(11), "{told}");
            self.refused.add(&answer);
            let answer = make_by_both(memory, &call, call.least_output() - 1, &told);
            assert_eq!(answer, Err(10), "{told}");
        }
    }
}

#[test]
fn rooms_where_a_seat_names_its_own_key_are_not_whole() {
    let mut met = [0; NAMED.len()];
    let mut made = Made::new();
    for case in cases() {
        let memory = case.memory();
        let told = format!("{case:?}");
        assert_eq!(test_by_both(&memory, &told), case.is_whole(), "{told}");
        met[case.named as usize] += 1;
        let calls = case.calls().into_iter().chain(ticks());
        made.make_each(&memory, case.is_whole(), calls, &told);
    }

    let mut text = String::from("rooms where a route has a seat's own key, or another");
    for (named, count) in NAMED.iter().zip(met) {
        text += &format!(", {named:?}: {count}");
    }
    text += "\n";
    text += &made.refused.line("calls where a seat names its own key");
    text += &made.beside.line("calls on the whole rooms beside them");
    say(&text);
    assert!(met.iter().all(|count| *count > 0));
    assert!(made.refused.total() >= 1_000);
    made.beside.demand(
        "calls on the whole rooms beside them",
        &[1, 3, 4, 5, 6, 7, 8, 9],
    );
}
