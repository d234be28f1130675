//! What a history meets: counts of the cases that its calls come to.
//!
//! A comparison over made-up histories says little unless it is known that they
//! meet every case. The counter makes each call on a room of its own, which
//! begins empty, and tells the cases apart by that room and by the answer. The
//! cases that ticks bring are apart, in `met_ticks`, and those of reconnects in
//! `met_reconnects`.

use std::collections::{BTreeMap, HashMap, HashSet};

use crate::call::Call;
use crate::key::Key;
use crate::met_reconnects::{Reconnect, RECONNECT_CASES};
use crate::met_ticks::{self, MetTicks};
use crate::packet::{relay_read, FromClient};
use crate::refusal::Refusal;
use crate::room::{Accepted, Room, Sizes};
use crate::seat::Seat;

/// The cases that are counted for any history, in no order, but for those of
/// reconnects. What a tick comes to is in none of them.
pub const CASES: [&str; 45] = [
    "refusal 1",
    "refusal 3",
    "refusal 4",
    "refusal 5",
    "refusal 6",
    "refusal 7",
    "refusal 8",
    "refusal 9",
    "full room",
    "arrival in another seat",
    "arrival of a key that is asked for",
    "connect",
    "connect again",
    "connect under different numbers",
    "connect to a client in another seat than before",
    "disconnect by drop",
    "disconnect by leave",
    "disconnect by reconnect",
    "leave that tells two peers or more",
    "leave that tells nobody",
    "request answered 0",
    "request answered 0 for another's key",
    "request answered 0 for a seated key that waits for it",
    "request answered the last number",
    "request repeated, waiting",
    "request repeated, connected",
    "request repeated, full table",
    "request for the own key",
    "request for the own key, empty table",
    "request for the own key, thin table",
    "request for the own key, full table",
    "request for the own key repeated, empty table",
    "request for the own key repeated, thin table",
    "request for the own key repeated, full table",
    "request for an absent key",
    "drop of a waiting number",
    "drop refused with 8",
    "data passed on",
    "data of the greatest length passed on",
    "data refused with 9, the seat of the peer taken by another",
    "out-of-band to another",
    "out-of-band to oneself",
    "out-of-band to nobody",
    "ping",
    "pong",
];

/// The cases met so far, over one history or several.
pub struct Met {
    room: Room,
    counts: BTreeMap<&'static str, usize>,
    /// The seat that each key left last.
    last_seat: HashMap<Key, usize>,
    /// The seat of the peer in which a pair was connected last, by the keys of
    /// the one that is told and of the peer.
    met_in: HashMap<(Key, Key), usize>,
    /// The pairs that were disconnected, each both ways.
    parted: HashSet<(Key, Key)>,
    /// The seated clients that asked for their own key, each with the case that
    /// the table of its seat made of it.
    asked_itself: HashSet<(Key, &'static str)>,
    /// The key of the last call, where that was a reconnect.
    reconnected: Option<Key>,
    /// The cases that ticks bring.
    ticks: MetTicks,
}

impl Met {
    pub fn new(sizes: Sizes) -> Met {
        Met {
            room: Room::empty(sizes),
            counts: cases().map(|case| (case, 0)).collect(),
            last_seat: HashMap::new(),
            met_in: HashMap::new(),
            parted: HashSet::new(),
            asked_itself: HashSet::new(),
            reconnected: None,
            ticks: MetTicks::default(),
        }
    }

    /// Begins another history. The counts go on.
    pub fn begin(&mut self) {
        let counts = std::mem::take(&mut self.counts);
        let mut ticks = std::mem::take(&mut self.ticks);
        ticks.begin();
        *self = Met {
            counts,
            ticks,
            ..Met::new(self.room.sizes())
        };
    }

    /// The room after the calls made so far.
    pub fn room(&self) -> &Room {
        &self.room
    }

    /// How often each case of `CASES` and `met_reconnects::RECONNECT_CASES` was met.
    pub fn counts(&self) -> &BTreeMap<&'static str, usize> {
        &self.counts
    }

    /// How often each case of `met_ticks::TICK_CASES` was met.
    pub fn tick_counts(&self) -> &BTreeMap<&'static str, usize> {
        self.ticks.counts()
    }

    /// The most bytes that a tick wrote.
    pub fn largest_tick(&self) -> usize {
        self.ticks.largest()
    }

    /// Makes a call, answers what it comes to, and counts its cases.
    pub fn make(&mut self, call: &Call) -> Result<Accepted, Refusal> {
        let last_reconnected = self.reconnected.take();
        match call {
            Call::Tick { time, .. } => return self.make_tick(call, *time),
            Call::Arrive { key } if self.room.seat_of(key).is_some() => {
                return self.make_reconnect(*key, last_reconnected == Some(*key));
            }
            _ => {}
        }
        self.count_before(call);
        let keys = self.seated_keys();
        let answer = call.make(&mut self.room, call.least_output());
        match &answer {
            Ok(accepted) => self.count_accepted(call, accepted, &keys),
            Err(number) => self.count(&format!("refusal {number}")),
        }
        answer
    }

    /// Makes an arrival of this seated key: its departure is noted as that of a
    /// leave, and its arrival counted as any. `repeated` where the last call was a
    /// reconnect of this key too.
    fn make_reconnect(&mut self, key: Key, repeated: bool) -> Result<Accepted, Refusal> {
        let call = Call::Arrive { key };
        let keys = self.seated_keys();
        let before = self.room.clone();
        let accepted = call.make(&mut self.room, call.least_output())?;
        let reconnect = Reconnect {
            key,
            before: &before,
            after: &self.room,
            repeated,
        };
        let (cases, peers) = (reconnect.cases(), reconnect.peers());
        let (left, taken) = reconnect.seats();
        let (was, is) = reconnect.clients();
        self.ticks.count_reconnect(was, is);
        self.note_gone(key, left);
        self.count_disconnects("disconnect by reconnect", key, &peers, &keys);
        self.count_arrival(taken, &key);
        for case in cases {
            self.count(case);
        }
        self.reconnected = Some(key);
        Ok(accepted)
    }

    /// Makes a tick of this time. It adds to no case of `CASES`, but those that it
    /// puts out are away from then on.
    fn make_tick(&mut self, call: &Call, time: u64) -> Result<Accepted, Refusal> {
        let before = self.room.clone();
        let answer = call.make(&mut self.room, call.least_output());
        match &answer {
            Ok(accepted) => {
                self.ticks.count_accepted(&before, accepted, &self.room);
                self.note_put_out(&before);
            }
            Err(number) => self.ticks.count_refused(&before, time, *number),
        }
        answer
    }

    fn count(&mut self, case: &str) {
        *self.counts.get_mut(case).expect("a case of the list") += 1;
    }

    fn count_if(&mut self, met: bool, case: &str) {
        if met {
            self.count(case);
        }
    }

    /// The key in each seat.
    fn seated_keys(&self) -> Vec<Option<Key>> {
        let key = |seat| self.room.client(seat).map(|client| client.key);
        (0..self.room.seats.len()).map(key).collect()
    }

    fn full(&self) -> bool {
        self.room.seats.iter().all(Option::is_some)
    }

    /// The cases that the room before the call tells.
    fn count_before(&mut self, call: &Call) {
        match call {
            Call::Leave { seat } => self.count_before_leave(usize::from(*seat)),
            Call::Packet { seat, bytes } => self.count_before_packet(usize::from(*seat), bytes),
            Call::Arrive { .. } | Call::Tick { .. } => {}
        }
    }

    fn count_before_leave(&mut self, seat: usize) {
        if let Some(leaver) = self.room.client(seat) {
            self.ticks.count_leave(leaver);
        }
    }

    fn count_before_packet(&mut self, seat: usize, bytes: &[u8]) {
        let (Some(client), Ok(packet)) = (self.room.client(seat), relay_read(bytes)) else {
            return;
        };
        let own = client.key;
        match packet {
            FromClient::RoutingRequest { key } if key == own => self.count_own_request(seat),
            FromClient::RoutingRequest { key } => self.count_request(seat, &key),
            FromClient::Drop { number } => self.count_drop(seat, number),
            FromClient::Ping { .. } => self.count("ping"),
            FromClient::Pong { id } => {
                self.count("pong");
                self.ticks.count_pong(&self.room, seat, id);
            }
            FromClient::OobSend { key, .. } => self.count_out_of_band(seat, &key),
            FromClient::Data { number, data } => self.count_data(seat, number, data.len()),
        }
    }

    /// A request for the own key, which is answered 0 whatever the table.
    fn count_own_request(&mut self, seat: usize) {
        let asker = self.room.client(seat).expect("a taken seat");
        let own = asker.key;
        let (case, case_repeated) = own_key_cases(asker);
        let first = self.asked_itself.insert((own, case));

        self.count("request answered 0");
        self.count("request for the own key");
        self.count(case);
        self.count_if(!first, case_repeated);
    }

    /// A request for another's key, which is answered 0 with a full table alone.
    fn count_request(&mut self, seat: usize, key: &Key) {
        let asker = self.room.client(seat).expect("a taken seat");
        let own = asker.key;
        let full = asker.lowest_free().is_none();
        let old = asker.number_for(key);
        let last = asker.numbers().last();
        let gets_last = old.is_none() && last.is_some() && asker.lowest_free() == last;
        let asked = self.room.seat_of(key);
        let asks_back = asked
            .and_then(|asked| self.room.client(asked))
            .is_some_and(|asked| asked.number_for(&own).is_some());
        let connected = old.is_some_and(|old| self.room.peer(seat, old).is_some());

        self.count_if(old.is_some() && connected, "request repeated, connected");
        self.count_if(old.is_some() && !connected, "request repeated, waiting");
        self.count_if(old.is_some() && full, "request repeated, full table");
        self.count_if(old.is_none() && full, "request answered 0");
        self.count_if(
            old.is_none() && full,
            "request answered 0 for another's key",
        );
        self.count_if(
            old.is_none() && full && asks_back,
            "request answered 0 for a seated key that waits for it",
        );
        self.count_if(gets_last, "request answered the last number");
        self.count_if(asked.is_none(), "request for an absent key");
    }

    fn count_drop(&mut self, seat: usize, number: u8) {
        let held = self.room.client(seat).and_then(|own| own.wanted(number));
        let connected = self.room.peer(seat, number).is_some();
        self.count_if(held.is_none(), "drop refused with 8");
        self.count_if(held.is_some() && !connected, "drop of a waiting number");
    }

    fn count_data(&mut self, seat: usize, number: u8, length: usize) {
        let connected = self.room.peer(seat, number).is_some();
        self.count_if(connected, "data passed on");
        self.count_if(
            connected && length == 2_031,
            "data of the greatest length passed on",
        );
        let own = self.room.client(seat).expect("a taken seat");
        let seat_taken = own.wanted(number).is_some_and(|wanted| {
            let last = self.met_in.get(&(own.key, wanted));
            let now = last.and_then(|last| self.room.client(*last));
            now.is_some_and(|now| now.key != wanted)
        });
        self.count_if(
            !connected && seat_taken,
            "data refused with 9, the seat of the peer taken by another",
        );
    }

    fn count_out_of_band(&mut self, seat: usize, key: &Key) {
        self.count(match self.room.seat_of(key) {
            None => "out-of-band to nobody",
            Some(receiver) if receiver == seat => "out-of-band to oneself",
            Some(_) => "out-of-band to another",
        });
    }

    /// The cases that the answer tells. `keys` are those seated before it.
    fn count_accepted(&mut self, call: &Call, accepted: &Accepted, keys: &[Option<Key>]) {
        let seat = accepted.seat;
        let peers = |kind: u8| -> Vec<usize> {
            let told = accepted.records.iter();
            told.filter(|record| record.packet[0] == kind && record.seat != seat)
                .map(|record| record.seat)
                .collect()
        };
        match call {
            Call::Arrive { key } => self.count_arrival(seat, key),
            Call::Leave { .. } => {
                let own = keys[seat].expect("a taken seat");
                self.note_gone(own, seat);
                self.count_disconnects("disconnect by leave", own, &peers(3), keys);
                self.count_if(peers(3).len() > 1, "leave that tells two peers or more");
                self.count_if(peers(3).is_empty(), "leave that tells nobody");
            }
            Call::Packet { bytes, .. } if bytes[0] == 3 => {
                let own = keys[seat].expect("a taken seat");
                self.count_disconnects("disconnect by drop", own, &peers(3), keys);
            }
            Call::Packet { bytes, .. } if bytes[0] == 0 => {
                for peer in peers(2) {
                    self.count_connect(seat, peer);
                    let numbers = |place: usize| accepted.records[place].packet[1];
                    let differ = numbers(1) != numbers(2);
                    self.count_if(differ, "connect under different numbers");
                }
            }
            Call::Packet { .. } | Call::Tick { .. } => {}
        }
        if let Call::Packet { .. } = call {
            self.ticks.note_packet(keys[seat].expect("a taken seat"));
        }
    }

    /// Remembers who left, from where.
    fn note_gone(&mut self, own: Key, seat: usize) {
        self.last_seat.insert(own, seat);
        self.asked_itself.retain(|(asker, _)| *asker != own);
    }

    /// Remembers those that a tick put out, and whom they were connected with.
    fn note_put_out(&mut self, before: &Room) {
        for (seat, client) in before.seats.iter().enumerate() {
            let Some(client) = client else { continue };
            if self.room.client(seat).is_some() {
                continue;
            }
            self.note_gone(client.key, seat);
            for peer in met_ticks::peers(before, seat) {
                let peer = before.client(peer).expect("a taken seat").key;
                self.parted.extend([(client.key, peer), (peer, client.key)]);
            }
        }
    }

    fn count_arrival(&mut self, seat: usize, key: &Key) {
        self.ticks.count_arrival(seat);
        let last = self.last_seat.get(key).copied();
        let moved = last.is_some_and(|last| last != seat);
        let mut others = self.room.seats.iter().flatten();
        let asked_for = others.any(|other| other.number_for(key).is_some());
        self.count_if(moved, "arrival in another seat");
        self.count_if(asked_for, "arrival of a key that is asked for");
        self.count_if(self.full(), "full room");
    }

    fn count_disconnects(&mut self, case: &str, own: Key, peers: &[usize], keys: &[Option<Key>]) {
        for peer in peers {
            let peer = keys[*peer].expect("a taken seat");
            self.parted.extend([(own, peer), (peer, own)]);
            self.count(case);
        }
    }

    fn count_connect(&mut self, seat: usize, peer: usize) {
        let keys = self.seated_keys();
        let own = keys[seat].expect("a taken seat");
        let other = keys[peer].expect("a taken seat");
        self.count("connect");
        let again = self.parted.contains(&(own, other));
        self.count_if(again, "connect again");
        let before = [
            self.met_in.insert((own, other), peer),
            self.met_in.insert((other, own), seat),
        ];
        let moved = before[0].is_some_and(|before| before != peer)
            || before[1].is_some_and(|before| before != seat);
        self.count_if(moved, "connect to a client in another seat than before");
    }
}

/// Every case that is counted for any history.
fn cases() -> impl Iterator<Item = &'static str> {
    CASES.into_iter().chain(RECONNECT_CASES)
}

/// The case of a request for the own key by the table of the asker: empty, thin
/// or full. Behind it the case where this client asked so before, with such a
/// table, and has not left since.
fn own_key_cases(asker: &Seat) -> (&'static str, &'static str) {
    let empty = asker.routes.iter().all(Option::is_none);
    match asker.lowest_free() {
        None => (
            "request for the own key, full table",
            "request for the own key repeated, full table",
        ),
        Some(_) if empty => (
            "request for the own key, empty table",
            "request for the own key repeated, empty table",
        ),
        Some(_) => (
            "request for the own key, thin table",
            "request for the own key repeated, thin table",
        ),
    }
}

#[cfg(test)]
#[path = "met_tests.rs"]
mod tests;
