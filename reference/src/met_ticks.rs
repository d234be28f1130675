//! What a history with ticks meets, beside the cases of `met`: clients put out
//! and pinged, pongs of every sort, and ticks refused.
//!
//! The cases are told by the room before a call and the room after it, by the
//! answer, and by what is remembered of the history.

use std::collections::{BTreeMap, HashMap, HashSet};

use crate::key::Key;
use crate::record;
use crate::refusal::Refusal;
use crate::room::{Accepted, Room};
use crate::seat::Seat;

/// Every case that is counted for histories with ticks, in no order.
pub const TICK_CASES: [&str; 40] = [
    "put out with peers",
    "put out without peers",
    "put out at 10 seconds",
    "put out later than at 10 seconds",
    "not put out at 9 seconds",
    "put out though it sent packets since its ping",
    "two connected clients put out by one tick",
    "notice to a seat that the same tick empties",
    "notice to a lower seat that stays",
    "notice to a higher seat that stays",
    "all put out by one tick",
    "pinged",
    "pinged at 30 seconds",
    "pinged later than at 30 seconds",
    "pinged under 30 seconds after its pong",
    "not pinged since one is outstanding",
    "not pinged since too early",
    "not pinged at 29 seconds",
    "tick that puts out and pings",
    "tick that puts out and pings, with notices",
    "tick that does neither",
    "cleared by a pong",
    "pong of another's number",
    "pong of a wrong number",
    "pong late",
    "pong late, none outstanding",
    "pong late, another outstanding",
    "pong with none outstanding",
    "arrival between two ticks",
    "arrival in a seat that a tick emptied",
    "leave with a ping outstanding",
    "reconnect with a ping outstanding",
    "reconnect with a ping time before the clock",
    "tick refused with 7",
    "tick refused with 7, of a time before the clock",
    "tick refused with 19",
    "tick with the same time",
    "tick before the time of one refused with 7",
    "tick at the last second of 64 bits",
    "tick from the last second of 64 bits",
];

/// The cases met so far, over one history or several.
pub struct MetTicks {
    counts: BTreeMap<&'static str, usize>,
    /// The most bytes that a tick wrote.
    largest: usize,
    told: Told,
}

/// What is remembered of one history.
#[derive(Default)]
struct Told {
    /// Every ping sent, by the key that it was sent to.
    pings: HashSet<(Key, u64)>,
    /// The clock when each key last answered its ping.
    answered: HashMap<Key, u64>,
    /// The clients that sent a packet since they were last pinged.
    spoke: HashSet<Key>,
    /// The seats that a tick emptied, and nobody took again.
    emptied: HashSet<usize>,
    /// Whether there was an accepted tick, and the arrivals since the last one.
    ticked: bool,
    arrived: usize,
    /// The latest time of a tick refused with 7.
    refused: u64,
}

impl Default for MetTicks {
    fn default() -> MetTicks {
        MetTicks {
            counts: TICK_CASES.into_iter().map(|case| (case, 0)).collect(),
            largest: 0,
            told: Told::default(),
        }
    }
}

impl MetTicks {
    /// Begins another history. The counts and the maximum go on.
    pub fn begin(&mut self) {
        self.told = Told::default();
    }

    /// How often each case was met.
    pub fn counts(&self) -> &BTreeMap<&'static str, usize> {
        &self.counts
    }

    /// The most bytes that a tick wrote.
    pub fn largest(&self) -> usize {
        self.largest
    }

    fn count(&mut self, case: &str) {
        *self.counts.get_mut(case).expect("a case of the list") += 1;
    }

    fn count_if(&mut self, met: bool, case: &str) {
        if met {
            self.count(case);
        }
    }
}

/// Calls that are no ticks.
impl MetTicks {
    /// An accepted arrival in this seat.
    pub fn count_arrival(&mut self, seat: usize) {
        let emptied = self.told.emptied.remove(&seat);
        self.count_if(emptied, "arrival in a seat that a tick emptied");
        self.told.arrived += 1;
    }

    /// An accepted leave of this client.
    pub fn count_leave(&mut self, leaver: &Seat) {
        self.count_if(leaver.owes_pong(), "leave with a ping outstanding");
    }

    /// A reconnect of this client, which owes no pong then and starts with the
    /// clock as its ping time.
    pub fn count_reconnect(&mut self, was: &Seat, is: &Seat) {
        let cleared = was.owes_pong() && !is.owes_pong();
        self.count_if(cleared, "reconnect with a ping outstanding");
        let moved = was.ping_time < is.ping_time;
        self.count_if(moved, "reconnect with a ping time before the clock");
    }

    /// An accepted packet of this client; a pong is told by `count_pong` too.
    pub fn note_packet(&mut self, sender: Key) {
        self.told.spoke.insert(sender);
    }

    /// A pong of the client in this taken seat, with the room before it.
    pub fn count_pong(&mut self, room: &Room, seat: usize, id: u64) {
        let client = room.client(seat).expect("a taken seat");
        if client.outstanding == id {
            self.count("cleared by a pong");
            self.told.answered.insert(client.key, room.clock);
            return;
        }
        let none = !client.owes_pong();
        let mut clients = room.seats.iter().flatten();
        let anothers = clients.any(|other| other.outstanding == id);
        let late = self.told.pings.contains(&(client.key, id));
        // One is outstanding, and this was never its own nor is it another's.
        let wrong = !none && !anothers && !late;
        self.count_if(wrong, "pong of a wrong number");
        self.count_if(none, "pong with none outstanding");
        self.count_if(anothers, "pong of another's number");
        self.count_if(late, "pong late");
        self.count_if(late && none, "pong late, none outstanding");
        self.count_if(late && !none, "pong late, another outstanding");
    }
}

/// Ticks.
impl MetTicks {
    /// A refused tick, and the room as it is.
    pub fn count_refused(&mut self, room: &Room, time: u64, number: Refusal) {
        let back = time < room.clock;
        self.count(&format!("tick refused with {number}"));
        self.count_if(
            number == 7 && back,
            "tick refused with 7, of a time before the clock",
        );
        if number == 7 {
            self.told.refused = self.told.refused.max(time);
        }
    }

    /// An accepted tick, with the rooms before and after it.
    pub fn count_accepted(&mut self, before: &Room, accepted: &Accepted, after: &Room) {
        self.count_time(before.clock, after.clock);
        self.count_records(accepted, before, after);
        for seat in 0..before.seats.len() {
            let Some(client) = before.client(seat) else {
                continue;
            };
            match after.client(seat) {
                None => self.count_put_out(before, seat, after),
                Some(_) if kinds_to(accepted, seat).contains(&4) => {
                    self.count_pinged(client, after)
                }
                Some(_) => self.count_not_pinged(client, after.clock),
            }
        }
    }

    /// The cases of the time, which follows the clock before.
    fn count_time(&mut self, clock: u64, time: u64) {
        if self.told.ticked {
            for _ in 0..self.told.arrived {
                self.count("arrival between two ticks");
            }
        }
        self.told.ticked = true;
        self.told.arrived = 0;
        self.count_if(time == clock, "tick with the same time");
        self.count_if(
            time < self.told.refused,
            "tick before the time of one refused with 7",
        );
        self.count_if(time == u64::MAX, "tick at the last second of 64 bits");
        self.count_if(clock == u64::MAX, "tick from the last second of 64 bits");
    }

    /// The cases that the records tell, as a whole.
    fn count_records(&mut self, accepted: &Accepted, before: &Room, after: &Room) {
        self.largest = self.largest.max(record::bytes(&accepted.records).len());
        let kinds = |kind: u8| accepted.records.iter().any(|sent| sent.packet[0] == kind);
        let (notices, pings) = (kinds(3), kinds(4));
        let (seated, remain) = (taken(before), taken(after));
        let put_out = remain < seated;
        self.count_if(put_out && pings, "tick that puts out and pings");
        self.count_if(
            put_out && pings && notices,
            "tick that puts out and pings, with notices",
        );
        self.count_if(!put_out && !pings, "tick that does neither");
        self.count_if(seated > 1 && remain == 0, "all put out by one tick");
        for sent in &accepted.records {
            let emptied = after.client(sent.seat).is_none();
            self.count_if(emptied, "notice to a seat that the same tick empties");
        }
    }

    /// The client in this seat of the room before is in no seat after.
    fn count_put_out(&mut self, before: &Room, seat: usize, after: &Room) {
        let client = before.client(seat).expect("a taken seat");
        let since = client.since_ping(after.clock);
        let spoke = self.told.spoke.remove(&client.key);
        let peers = peers(before, seat);
        self.told.emptied.insert(seat);

        self.count_if(!peers.is_empty(), "put out with peers");
        self.count_if(peers.is_empty(), "put out without peers");
        self.count_if(since == 10, "put out at 10 seconds");
        self.count_if(since > 10, "put out later than at 10 seconds");
        self.count_if(spoke, "put out though it sent packets since its ping");
        for peer in peers {
            let stays = after.client(peer).is_some();
            let lower = peer < seat;
            self.count_if(stays && lower, "notice to a lower seat that stays");
            self.count_if(stays && !lower, "notice to a higher seat that stays");
            self.count_if(
                !stays && !lower,
                "two connected clients put out by one tick",
            );
        }
    }

    /// This client of the room before was sent a ping.
    fn count_pinged(&mut self, client: &Seat, after: &Room) {
        let time = after.clock;
        let seat = after.seat_of(&client.key).expect("a seated client");
        let number = after.client(seat).expect("a taken seat").outstanding;
        let since = client.since_ping(time);
        let answered = self.told.answered.get(&client.key);
        let soon = answered.is_some_and(|answered| time - answered < 30);
        self.told.pings.insert((client.key, number));
        self.told.spoke.remove(&client.key);

        self.count("pinged");
        self.count_if(since == 30, "pinged at 30 seconds");
        self.count_if(since > 30, "pinged later than at 30 seconds");
        self.count_if(soon, "pinged under 30 seconds after its pong");
    }

    /// This client of the room before stays and was sent no ping.
    fn count_not_pinged(&mut self, client: &Seat, time: u64) {
        let since = client.since_ping(time);
        if client.owes_pong() {
            self.count("not pinged since one is outstanding");
            self.count_if(since == 9, "not put out at 9 seconds");
        } else {
            self.count("not pinged since too early");
            self.count_if(since == 29, "not pinged at 29 seconds");
        }
    }
}

/// How many seats are taken.
fn taken(room: &Room) -> usize {
    room.seats.iter().flatten().count()
}

/// The seats of the clients that this one is connected with.
pub fn peers(room: &Room, seat: usize) -> Vec<usize> {
    let client = room.client(seat).expect("a taken seat");
    client
        .numbers()
        .filter_map(|number| room.peer(seat, number))
        .map(|(peer, _)| peer)
        .collect()
}

/// The kinds of the packets sent to this seat.
fn kinds_to(accepted: &Accepted, seat: usize) -> Vec<u8> {
    let all = accepted.records.iter();
    all.filter(|sent| sent.seat == seat)
        .map(|sent| sent.packet[0])
        .collect()
}

#[cfg(test)]
#[path = "met_ticks_tests.rs"]
mod tests;
