//! Which requests stand in the made-up histories, told by the calls and their
//! answers alone: each from an answer other than 0 until its number is dropped
//! or its client leaves, as it does too where its key arrives anew. None of them
//! is for the own key of its client.
//!
//! So are the clock and the pings told, and with them whom a tick puts out, which
//! its answer does not tell.

use std::collections::BTreeMap;

use super::tests::{both_histories, SMALL};
use super::*;
use crate::record::Record;
use crate::room::Accepted;

/// The seated clients, their pings, and their requests that stand.
#[derive(Debug, Default, PartialEq, Eq)]
struct Standing {
    /// The key in each taken seat.
    seated: BTreeMap<usize, Key>,
    /// The key asked for, by the seat of the asker and the number answered.
    wanted: BTreeMap<(usize, u8), Key>,
    /// For each taken seat the time of the last ping, or of the arrival, and the
    /// number not yet answered or 0.
    pings: BTreeMap<usize, (u64, u64)>,
    clock: u64,
}

impl Standing {
    /// Takes in an accepted call.
    fn follow(&mut self, call: &Call, accepted: &Accepted) {
        let seat = accepted.seat;
        match call {
            Call::Arrive { key } => self.arrived(seat, *key),
            Call::Leave { .. } => self.gone(seat),
            Call::Tick { time, ping } => self.ticked(*time, *ping, &accepted.records),
            Call::Packet { bytes, .. } if bytes[0] == 3 => {
                self.wanted.remove(&(seat, bytes[1]));
            }
            Call::Packet { bytes, .. } if bytes[0] == 0 => {
                let number = accepted.records[0].packet[1];
                if number != 0 {
                    self.wanted.insert((seat, number), asked_key(bytes));
                }
            }
            Call::Packet { bytes, .. } if bytes[0] == 5 => {
                let (time, owed) = self.pings[&seat];
                if bytes[1..] == owed.to_be_bytes() {
                    self.pings.insert(seat, (time, 0));
                }
            }
            Call::Packet { .. } => {}
        }
    }

    /// Takes in an accepted arrival. That of a seated key ends its sitting in the
    /// old seat and all its requests.
    fn arrived(&mut self, seat: usize, key: Key) {
        let mut seated = self.seated.iter();
        let old = seated.find(|(_, held)| **held == key);
        if let Some(old) = old.map(|(seat, _)| *seat) {
            self.gone(old);
        }
        self.seated.insert(seat, key);
        self.pings.insert(seat, (self.clock, 0));
    }

    fn gone(&mut self, seat: usize) {
        self.seated.remove(&seat);
        self.pings.remove(&seat);
        self.wanted.retain(|(asker, _), _| *asker != seat);
    }

    /// Takes in an accepted tick. Whom it puts out is told by the pings before it,
    /// and whom it pings by what it sends.
    fn ticked(&mut self, time: u64, ping: u64, sent: &[Record]) {
        let unanswered = |(since, owed): (u64, u64)| owed != 0 && time - since >= 10;
        let seats: Vec<usize> = self.pings.keys().copied().collect();
        for seat in seats {
            if unanswered(self.pings[&seat]) {
                self.gone(seat);
            }
        }
        for record in sent.iter().filter(|record| record.packet[0] == 4) {
            assert_eq!(record.packet[1..], ping.to_be_bytes());
            self.pings.insert(record.seat, (time, ping));
        }
        self.clock = time;
    }

    /// What stands in a room, by its seats and routes.
    fn of(room: &Room) -> Standing {
        let mut standing = Standing {
            clock: room.clock,
            ..Standing::default()
        };
        for (seat, client) in room.seats.iter().enumerate() {
            let Some(client) = client else { continue };
            standing.seated.insert(seat, client.key);
            let ping = (client.ping_time, client.outstanding);
            standing.pings.insert(seat, ping);
            for number in client.numbers() {
                let wanted = client.wanted(number);
                let held = wanted.map(|key| ((seat, number), key));
                standing.wanted.extend(held);
            }
        }
        standing
    }

    /// Whether a request stands from a key for itself.
    fn for_itself(&self) -> bool {
        let mut wanted = self.wanted.iter();
        wanted.any(|((seat, _), wanted)| self.seated[seat] == *wanted)
    }

    fn is_own(&self, seat: usize, key: &Key) -> bool {
        self.seated[&seat] == *key
    }

    /// Whether all of these numbers are held by the seat, and none for this key.
    fn full_without(&self, seat: usize, key: &Key, numbers: usize) -> bool {
        let all = self.wanted.iter();
        let of_seat = all.filter(|((asker, _), _)| *asker == seat);
        let held: Vec<&Key> = of_seat.map(|(_, wanted)| wanted).collect();
        held.len() == numbers && !held.contains(&key)
    }
}

/// The key in a request.
fn asked_key(request: &[u8]) -> Key {
    request[1..].try_into().expect("a key")
}

/// The seat and the key of an accepted request; none for any other call.
fn request_of(call: &Call, accepted: &Accepted) -> Option<(usize, Key)> {
    match call {
        Call::Packet { bytes, .. } if bytes[0] == 0 => Some((accepted.seat, asked_key(bytes))),
        _ => None,
    }
}

/// Nothing ever stands from a key for itself, and the routes of the room are at
/// every moment the requests that stand. So are its seats, its pings and its
/// clock what the calls and their answers tell.
#[test]
fn nothing_stands_from_a_key_for_itself() {
    for (sizes, seeds) in [(BASE, 20), (SMALL, 40)] {
        for seed in 0..seeds {
            for history in both_histories(4_000 + seed, sizes) {
                let mut room = Room::empty(sizes);
                let mut standing = Standing::default();
                for call in history.take(1_500) {
                    if let Ok(accepted) = call.make(&mut room, call.least_output()) {
                        standing.follow(&call, &accepted);
                    }
                    assert!(!standing.for_itself());
                    assert_eq!(standing, Standing::of(&room));
                }
            }
        }
    }
}

/// A request is answered 0 exactly when its key is the asker's own, or no number
/// is free and none names it.
#[test]
fn a_request_is_answered_0_for_the_own_key_or_with_a_full_table_alone() {
    let mut met = Grounds::default();
    for (sizes, seeds) in [(BASE, 20), (SMALL, 40)] {
        for seed in 0..seeds {
            for history in both_histories(5_000 + seed, sizes) {
                met.judge(sizes, history);
            }
        }
    }
    assert!(met.own > 500 && met.full > 500 && met.none > 500, "{met:?}");
}

/// How many requests had a ground for 0, and how many had none.
#[derive(Debug, Default)]
struct Grounds {
    own: usize,
    full: usize,
    none: usize,
}

impl Grounds {
    /// Judges every answer to a request in this history.
    fn judge(&mut self, sizes: Sizes, history: Generator) {
        let mut room = Room::empty(sizes);
        let mut standing = Standing::default();
        for call in history.take(1_500) {
            let before = room.clone();
            let Ok(accepted) = call.make(&mut room, call.least_output()) else {
                continue;
            };
            if let Some((seat, key)) = request_of(&call, &accepted) {
                let answers_0 = self.count(&standing, seat, &key, sizes.numbers);
                assert_eq!(accepted.records[0].packet[1] == 0, answers_0);
                if answers_0 {
                    assert_eq!(accepted.records, [answer_0(seat, &key)]);
                    assert_eq!(room, before);
                }
            }
            standing.follow(&call, &accepted);
        }
    }

    /// Whether there is a ground to answer this request with 0.
    fn count(&mut self, standing: &Standing, seat: usize, key: &Key, numbers: usize) -> bool {
        let own = standing.is_own(seat, key);
        let full = standing.full_without(seat, key, numbers);
        match (own, full) {
            (true, _) => self.own += 1,
            (false, true) => self.full += 1,
            (false, false) => self.none += 1,
        }
        own || full
    }
}

/// The answer 0 to the asker, with the key asked for.
fn answer_0(seat: usize, key: &Key) -> Record {
    Record {
        seat,
        packet: [&[1, 0], &key[..]].concat(),
    }
}

/// A history without its requests for the own key comes to the same, call by
/// call and in the room.
#[test]
fn requests_for_the_own_key_left_out_change_nothing() {
    for (sizes, seeds) in [(BASE, 10), (SMALL, 20)] {
        let mut left_out = 0;
        for seed in 0..seeds {
            for history in both_histories(6_000 + seed, sizes) {
                left_out += leave_out(sizes, history);
            }
        }
        assert!(left_out > 400, "{left_out}");
    }
}

/// Makes the calls of a history with and without its requests for the own key.
/// Answers how many were left out.
fn leave_out(sizes: Sizes, history: Generator) -> usize {
    let mut room = Room::empty(sizes);
    let mut without = Room::empty(sizes);
    let mut left_out = 0;
    for call in history.take(1_500) {
        let own = asks_for_itself(&room, &call);
        let answer = call.make(&mut room, call.least_output());
        if own {
            left_out += 1;
        } else {
            assert_eq!(call.make(&mut without, call.least_output()), answer);
        }
        assert_eq!(room, without);
    }
    left_out
}

/// Whether the call is a well-formed request of a taken seat for its own key.
fn asks_for_itself(room: &Room, call: &Call) -> bool {
    let Call::Packet { seat, bytes } = call else {
        return false;
    };
    let client = room.client(usize::from(*seat));
    client.is_some_and(|client| *bytes == [&[0], &client.key[..]].concat())
}
