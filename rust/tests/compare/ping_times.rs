//! Rooms in lent memory with a ping time after the clock. By request 03 of
//! document 02 they are not whole, and every call on one, with output long
//! enough, is refused with 11.
//!
//! Beside each stand rooms that differ from it in that alone: the ping time is
//! that of the clock or before it, or stands in the record of an empty seat.
//! They are whole. The second program says what the test and each call must
//! answer.

use crate::memory::test_by_both;
use crate::own_key::Made;
use crate::sitting::ask_by_both;
use crate::tally::say;
use reference::call::Call;
use reference::key::Key;
use reference::memory;
use reference::room::{Room, BASE};
use reference::seat::Seat;

/// A room with a ping time in question.
#[derive(Debug, Clone, Copy)]
struct Case {
    clients: usize,
    seat: usize,
    clock: u64,
    ping_time: u64,
    /// Whether somebody sits there; else the record is what a client left.
    taken: bool,
}

impl Case {
    fn is_whole(self) -> bool {
        !self.taken || self.ping_time <= self.clock
    }

    fn memory(self) -> Vec<u8> {
        let mut room = Room::empty(BASE);
        room.clock = self.clock;
        for seat in 0..self.clients {
            room.seats[seat] = Some(Seat::taken_by(&client(seat), BASE.numbers, self.clock));
        }
        let last = Seat::taken_by(&client(self.seat), BASE.numbers, self.ping_time);
        room.seats[self.seat] = Some(last);
        let taken = memory::encode(&room);
        if self.taken {
            return taken;
        }
        // All that says who sits where is that of the room without this client:
        // the records are those of the room with it.
        room.seats[self.seat] = None;
        let without = memory::encode(&room);
        let records = 10 + 1 + BASE.seats;
        [&without[..records], &taken[records..]].concat()
    }

    /// Calls of every kind, most by the seat: accepted in a whole room, or
    /// refused with 1, 3 and 5 to 8, of the ticks with 7 and 19.
    fn calls(self) -> Vec<Call> {
        let packet = |kind: u8, rest: &[u8]| Call::Packet {
            seat: self.seat as u8,
            bytes: [&[kind], rest].concat(),
        };
        let tick = |time, ping| Call::Tick { time, ping };
        let key = client(self.seat);
        vec![
            packet(0, &client((self.seat + 1) % BASE.seats)),
            packet(3, &[16]),
            packet(4, &[0, 0, 0, 0, 0, 0, 0, 9]),
            packet(5, &[0, 0, 0, 0, 0, 0, 0, 9]),
            packet(5, &[0; 8]),
            packet(6, &[&key[..], b"a"].concat()),
            packet(16, b"a"),
            packet(16, &[]),
            packet(1, &key),
            Call::Arrive { key },
            Call::Arrive { key: [0x90; 32] },
            Call::Leave {
                seat: self.seat as u8,
            },
            Call::Leave { seat: 40 },
            tick(self.clock, 9),
            tick(self.clock.saturating_add(30), 9),
            tick(u64::MAX, 9),
            tick(self.clock.saturating_sub(1), 9),
            tick(u64::MAX, 0),
        ]
    }
}

fn client(seat: usize) -> Key {
    [0x40 + seat as u8; 32]
}

/// One client, two, and a full room; its first seat, one in the middle and the
/// last. The clock at its start, and up to the last but one second of 64 bits.
fn cases() -> Vec<Case> {
    let mut cases = Vec::new();
    for (clients, seat) in [(1, 0), (2, 0), (2, 1), (40, 0), (40, 20), (40, 39)] {
        for clock in [0, 1, 60, 255, 256, 1 << 32, u64::MAX - 1] {
            let times = [0, clock / 2, clock, clock + 1, clock | 1 << 63, u64::MAX];
            for ping_time in times {
                cases.extend([true, false].map(|taken| Case {
                    clients,
                    seat,
                    clock,
                    ping_time,
                    taken,
                }));
            }
        }
    }
    cases
}

#[test]
fn rooms_with_a_ping_time_after_the_clock_are_not_whole() {
    let mut made = Made::new();
    let (mut rooms, mut stale) = (0, 0);
    for case in cases() {
        let memory = case.memory();
        let told = format!("{case:?}");
        assert_eq!(test_by_both(&memory, &told), case.is_whole(), "{told}");
        let keys = [client(case.seat), [0x90; 32]];
        ask_by_both(&memory, &keys, &told);
        rooms += 1;
        if !case.taken && case.ping_time > case.clock {
            stale += 1;
        }
        made.make_each(&memory, case.is_whole(), case.calls(), &told);
    }

    let mut text = format!(
        "rooms with a ping time in question: {rooms}, of these {stale} whole with a ping time \
         after the clock in an empty seat\n"
    );
    text += &made
        .refused
        .line("calls where a ping time is after the clock");
    text += &made.beside.line("calls on the whole rooms beside them");
    say(&text);
    assert!(made.refused.total() >= 1_000 && stale >= 50);
    made.beside
        .demand("calls on the whole rooms beside them", &[3, 5, 6, 7, 8, 19]);
}
