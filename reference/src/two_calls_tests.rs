//! Request 04 of document 02: "an arrival of a seated key has the outcome of the
//! two calls in that order, notices and all". Each made-up history is made once
//! more with a leave and an arrival in place of each reconnect.

use super::tests::{both_histories, SMALL};
use super::*;
use crate::met::Met;
use crate::record::Record;
use crate::refusal::{self, Refusal};
use crate::room::Accepted;

/// A room to which reconnects come as two calls.
struct Apart {
    room: Room,
}

impl Apart {
    /// Makes a call; in place of a reconnect its leave and its arrival.
    fn make(&mut self, call: &Call) -> Result<Accepted, Refusal> {
        match self.reconnecting(call) {
            Some(seat) => Ok(self.leave_and_arrive(seat, call)),
            None => call.make(&mut self.room, call.least_output()),
        }
    }

    /// The seat that the call has its client leave, where it is a reconnect.
    fn reconnecting(&self, call: &Call) -> Option<usize> {
        match call {
            Call::Arrive { key } => self.room.seat_of(key),
            _ => None,
        }
    }

    /// The records of the leave, behind which the arrival sends nothing, and the
    /// seat of the arrival. The first is accepted and makes room for the second.
    fn leave_and_arrive(&mut self, seat: usize, arrive: &Call) -> Accepted {
        let leave = Call::Leave { seat: seat as u8 };
        let left = leave.make(&mut self.room, leave.least_output());
        let arrived = arrive.make(&mut self.room, arrive.least_output());
        let (left, arrived) = (left.expect("a leave"), arrived.expect("an arrival"));
        assert_eq!(left.seat, seat);
        assert_eq!(arrived.records, []);
        Accepted {
            seat: arrived.seat,
            records: left.records,
        }
    }
}

/// How much was compared.
#[derive(Debug, Default)]
struct Compared {
    calls: usize,
    reconnects: usize,
    notices: usize,
}

impl Compared {
    /// Makes a history both ways. Each call sends the same, answers the same seat
    /// or refusal, and leads to the same room.
    fn history(&mut self, sizes: Sizes, calls: impl Iterator<Item = Call>) {
        let mut room = Room::empty(sizes);
        let mut apart = Apart {
            room: Room::empty(sizes),
        };
        for call in calls {
            let reconnects = apart.reconnecting(&call).is_some();
            let answer = call.make(&mut room, call.least_output());
            assert_eq!(answer, apart.make(&call), "{call:?}");
            assert!(room == apart.room, "{call:?}");
            assert_ne!(answer, Err(refusal::SEATED), "{call:?}");
            self.calls += 1;
            if reconnects {
                self.reconnects += 1;
                self.notices += notices(&answer.expect("a reconnect").records);
            }
        }
    }
}

/// How many of these are disconnect notifications, as all are for a reconnect.
fn notices(records: &[Record]) -> usize {
    assert!(records.iter().all(|record| record.packet[0] == 3));
    records.len()
}

#[test]
fn a_reconnect_is_a_leave_and_an_arrival() {
    let mut compared = Compared::default();
    for (sizes, seeds, calls) in [(BASE, 25, 2_000), (SMALL, 20, 1_000)] {
        for seed in 0..seeds {
            for history in both_histories(10_000 + seed, sizes) {
                compared.history(sizes, history.take(calls));
            }
        }
    }
    println!("{compared:?}");
    assert!(compared.calls >= 100_000, "{compared:?}");
    assert!(compared.reconnects >= 2_000, "{compared:?}");
    assert!(compared.notices >= 300, "{compared:?}");
}

/// The counter tells a reconnect from other arrivals as this does.
#[test]
fn reconnects_are_counted() {
    let mut met = Met::new(BASE);
    let mut compared = Compared::default();
    for seed in 0..10 {
        for history in both_histories(11_000 + seed, BASE) {
            met.begin();
            let calls: Vec<Call> = history.take(1_000).collect();
            for call in &calls {
                let _ = met.make(call);
            }
            compared.history(BASE, calls.into_iter());
        }
    }
    let of = |case: &str| met.counts()[case];
    let by_peers = of("reconnect without peers") + of("reconnect with peers");
    let by_seat = of("reconnect into a lower seat") + of("reconnect into its own seat");
    assert_eq!(by_peers, compared.reconnects);
    assert_eq!(by_seat, compared.reconnects);
    assert_eq!(of("disconnect by reconnect"), compared.notices);
}
