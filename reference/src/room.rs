//! The room: the relay itself, as a plain value that its calls change.
//!
//! The rules are those of document 01 under "The room", changed by three requests
//! of document 02: 02, "A client that asks for itself", 03, "Notice dead laptops",
//! and 04, "One call when a laptop comes back". The order of refusals is the one
//! under "Refusal numbers", for a tick and an arrival the one of its request. Each
//! function names its rule.
//!
//! Nothing is kept but the seats, their keys, the wanted keys, the pings and the
//! clock. Whether two clients are connected is looked up each time from just the
//! keys, so that no link can outlive the client it led to.

use crate::key::Key;
use crate::packet::{relay_read, FromClient, FromRelay};
use crate::record::{record, Record};
use crate::refusal::{self, Refusal};
use crate::seat::Seat;

/// How many seats a room has, and how many connection numbers each seat.
#[derive(Debug, Clone, Copy, PartialEq, Eq)]
pub struct Sizes {
    pub seats: usize,
    pub numbers: usize,
}

/// The sizes of document 01: seats 0 to 39, numbers 16 to 47.
pub const BASE: Sizes = Sizes {
    seats: 40,
    numbers: 32,
};

impl Sizes {
    /// Whether a room may have these sizes: it has at most 40 seats, and its
    /// numbers are among 16 to 255.
    pub fn right(self) -> bool {
        self.seats <= 40 && self.numbers <= 240
    }
}

/// An arrival, a leave and a packet call are given at least so much output
/// (refusal 10), whatever they would write.
pub const LEAST_OUTPUT: usize = 2_048;

/// A tick is given at least so much output (refusal 10), whatever it would write.
pub const LEAST_TICK_OUTPUT: usize = 5_120;

/// A room. An empty seat is `None`, so it holds no routes.
#[derive(Debug, Clone, PartialEq, Eq)]
pub struct Room {
    pub seats: Vec<Option<Seat>>,
    /// How many connection numbers each seat has.
    pub numbers: usize,
    /// "the room gets a clock in whole seconds, first 0".
    pub clock: u64,
}

/// What an accepted call comes to.
#[derive(Debug, Clone, PartialEq, Eq)]
pub struct Accepted {
    /// The seat answered to an arrival, or else the seat that made the call; 0 for
    /// a tick, which has none.
    pub seat: usize,
    /// What is sent, in the order sent.
    pub records: Vec<Record>,
}

/// The calls. Each is accepted, or refused with the room as it was.
impl Room {
    /// Rule "Arrive(key)", with refusals 10, 1, and request 04 of document 02: "an
    /// arrival of a seated key has the outcome of the two calls in that order,
    /// notices and all". So a seated key leaves first, and the lowest empty seat
    /// is looked for behind that: it may be below the old one, and there always is
    /// one, so that 1 "is given only to a key not seated".
    pub fn arrive(&mut self, key: &Key, output_len: usize) -> Result<Accepted, Refusal> {
        check_output(output_len, LEAST_OUTPUT)?;
        let records = match self.seat_of(key) {
            Some(old_seat) => self.go(old_seat),
            None => Vec::new(),
        };
        let seat = self.lowest_empty().ok_or(refusal::ROOM_FULL)?;
        self.seats[seat] = Some(Seat::taken_by(key, self.numbers, self.clock));
        Ok(Accepted { seat, records })
    }

    /// Rule "Leave(seat)", with refusals 10, 3.
    pub fn leave(&mut self, seat: usize, output_len: usize) -> Result<Accepted, Refusal> {
        check_output(output_len, LEAST_OUTPUT)?;
        self.check_seat(seat)?;
        let records = self.go(seat);
        Ok(Accepted { seat, records })
    }

    /// Request 03 of document 02, "A tick brings the time and a nonzero ping
    /// number", with refusals 10, 7, 19. First the silent clients leave, then the
    /// remaining ones are pinged. The clock becomes the time, and ages go by it.
    pub fn tick(&mut self, time: u64, ping: u64, output_len: usize) -> Result<Accepted, Refusal> {
        check_output(output_len, LEAST_TICK_OUTPUT)?;
        if ping == 0 {
            return Err(refusal::PING_NUMBER);
        }
        if time < self.clock {
            return Err(refusal::CLOCK);
        }
        self.clock = time;
        let mut records = self.put_out();
        records.extend(self.ping(ping));
        Ok(Accepted { seat: 0, records })
    }

    /// A packet call, with refusals 10, 3, those of the relay's reader 4, 5, 6, 7,
    /// then 8, 9. Of the rules, "Ping" is short enough to stand here.
    pub fn packet(
        &mut self,
        seat: usize,
        packet: &[u8],
        output_len: usize,
    ) -> Result<Accepted, Refusal> {
        check_output(output_len, LEAST_OUTPUT)?;
        self.check_seat(seat)?;
        let records = match relay_read(packet)? {
            FromClient::RoutingRequest { key } => self.request(seat, &key),
            FromClient::Drop { number } => self.drop_route(seat, number)?,
            FromClient::Ping { id } => vec![record(seat, &FromRelay::Pong { id })],
            FromClient::Pong { id } => self.pong(seat, id),
            FromClient::OobSend { key, data } => self.out_of_band(seat, &key, data),
            FromClient::Data { number, data } => self.data(seat, number, data)?,
        };
        Ok(Accepted { seat, records })
    }
}

/// What the packets do. The seat is taken: `packet` has tested it.
impl Room {
    /// Rule "Request", with request 02 of document 02. For the own key, which is
    /// tested first, "The answer becomes 0 and no route is taken". A key already
    /// named gets its old number again and nothing else happens. Otherwise the
    /// lowest free number is taken; with none free the response has 0 and nothing
    /// changes.
    fn request(&mut self, seat: usize, key: &Key) -> Vec<Record> {
        let asker = self.taken_mut(seat);
        if asker.key == *key {
            return vec![routing_response(seat, 0, key)];
        }
        if let Some(number) = asker.number_for(key) {
            return vec![routing_response(seat, number, key)];
        }
        let Some(number) = asker.lowest_free() else {
            return vec![routing_response(seat, 0, key)];
        };
        asker.hold(number, key);
        let mut records = vec![routing_response(seat, number, key)];
        records.extend(self.connect_notifications(seat, number));
        records
    }

    /// The two connect notifications of a new connection: to the asker, then to
    /// the peer, each with its own number. None while the asker's route waits.
    fn connect_notifications(&self, seat: usize, number: u8) -> Vec<Record> {
        let Some((peer, peer_number)) = self.peer(seat, number) else {
            return Vec::new();
        };
        let to_peer = FromRelay::Connect {
            number: peer_number,
        };
        vec![
            record(seat, &FromRelay::Connect { number }),
            record(peer, &to_peer),
        ]
    }

    /// Rule "Drop(number)", with refusal 8. A connected peer is told; its own
    /// request goes on standing. The dropper hears nothing.
    fn drop_route(&mut self, seat: usize, number: u8) -> Result<Vec<Record>, Refusal> {
        self.check_number(seat, number)?;
        let notification = self.disconnect_notification(seat, number);
        self.taken_mut(seat).free(number);
        Ok(notification.into_iter().collect())
    }

    /// Rule "Pong", with request 03 of document 02: "A pong with the outstanding
    /// number clears it; other pongs do nothing." Nobody is sent anything.
    fn pong(&mut self, seat: usize, id: u64) -> Vec<Record> {
        self.taken_mut(seat).note_pong(id);
        Vec::new()
    }

    /// Rule "Out-of-band send". Goes to the seat that holds the key, the
    /// sender's own too, with the sender's key put in. With no such seat it is
    /// accepted and nothing is sent.
    fn out_of_band(&self, seat: usize, destination: &Key, data: Vec<u8>) -> Vec<Record> {
        let Some(receiver) = self.seat_of(destination) else {
            return Vec::new();
        };
        let key = self.taken(seat).key;
        vec![record(receiver, &FromRelay::OobReceived { key, data })]
    }

    /// Rule "Data", with refusals 8, 9. Goes to the peer under the peer's number,
    /// not under the sender's.
    fn data(&self, seat: usize, number: u8, data: Vec<u8>) -> Result<Vec<Record>, Refusal> {
        self.check_number(seat, number)?;
        let Some((peer, peer_number)) = self.peer(seat, number) else {
            return Err(refusal::WAITING);
        };
        let received = FromRelay::Data {
            number: peer_number,
            data,
        };
        Ok(vec![record(peer, &received)])
    }

    /// The disconnect notification for the peer that is connected over this
    /// number, with the peer's own number.
    fn disconnect_notification(&self, seat: usize, number: u8) -> Option<Record> {
        let (peer, peer_number) = self.peer(seat, number)?;
        let notification = FromRelay::Disconnect {
            number: peer_number,
        };
        Some(record(peer, &notification))
    }
}

/// What a leave, an arrival of a seated key and a tick do.
impl Room {
    /// The client in this taken seat goes. In rising number of the leaver each
    /// connected peer is told disconnected with the peer's own number; its route
    /// goes on waiting. "The seat and its routes are emptied."
    fn go(&mut self, seat: usize) -> Vec<Record> {
        let leaver = self.taken(seat);
        let records = leaver
            .numbers()
            .filter_map(|number| self.disconnect_notification(seat, number))
            .collect();
        self.seats[seat] = None;
        records
    }

    /// "First, in rising seat order, every seat whose ping has stood unanswered
    /// for 10 seconds or more leaves as if it had called." One goes after the
    /// other, so one that goes tells a higher seat that goes next.
    fn put_out(&mut self) -> Vec<Record> {
        let mut records = Vec::new();
        for seat in 0..self.seats.len() {
            let dead = self
                .client(seat)
                .is_some_and(|client| client.is_dead(self.clock));
            if dead {
                records.extend(self.go(seat));
            }
        }
        records
    }

    /// "Then every remaining seat with none outstanding, last pinged 30 seconds
    /// ago or more, is pinged in that order."
    fn ping(&mut self, id: u64) -> Vec<Record> {
        let mut records = Vec::new();
        for (seat, client) in self.seats.iter_mut().enumerate() {
            let Some(client) = client else { continue };
            if client.is_ping_due(self.clock) {
                client.note_ping(self.clock, id);
                records.push(record(seat, &FromRelay::Ping { id }));
            }
        }
        records
    }
}

/// Looking around in a room.
impl Room {
    /// The empty room, with its clock at 0.
    pub fn empty(sizes: Sizes) -> Room {
        assert!(sizes.right());
        Room {
            seats: vec![None; sizes.seats],
            numbers: sizes.numbers,
            clock: 0,
        }
    }

    pub fn sizes(&self) -> Sizes {
        Sizes {
            seats: self.seats.len(),
            numbers: self.numbers,
        }
    }

    /// The client in this seat; none where it is empty or above the last.
    pub fn client(&self, seat: usize) -> Option<&Seat> {
        self.seats.get(seat).and_then(Option::as_ref)
    }

    /// The seat that holds this key.
    pub fn seat_of(&self, key: &Key) -> Option<usize> {
        let holds = |seat: &usize| self.client(*seat).is_some_and(|held| held.key == *key);
        (0..self.seats.len()).find(holds)
    }

    fn lowest_empty(&self) -> Option<usize> {
        self.seats.iter().position(Option::is_none)
    }

    /// The peer's seat and the peer's number, where this number of this seat
    /// is connected: the two sit in different seats, and each has a route that
    /// names the other's key.
    pub fn peer(&self, seat: usize, number: u8) -> Option<(usize, u8)> {
        let own = self.client(seat)?;
        let wanted = own.wanted(number)?;
        let peer = self.seat_of(&wanted)?;
        if peer == seat {
            return None;
        }
        let peer_number = self.client(peer)?.number_for(&own.key)?;
        Some((peer, peer_number))
    }

    /// Whether the room is whole: seated keys differ, the wanted keys of one
    /// seat differ, no seat names its own key, and no ping time is after the
    /// clock. Empty seats hold no routes by their form.
    pub fn whole(&self) -> bool {
        let clients: Vec<&Seat> = self.seats.iter().flatten().collect();
        let seated = clients.iter().map(|client| client.key).collect();
        differ(seated)
            && clients
                .iter()
                .all(|client| differ(client.routes.iter().flatten().copied().collect()))
            && !clients.iter().any(|client| client.names_itself())
            && clients.iter().all(|client| client.ping_time <= self.clock)
    }

    /// A seat that is known to be taken.
    fn taken(&self, seat: usize) -> &Seat {
        self.seats[seat].as_ref().expect("a taken seat")
    }

    /// A seat that is known to be taken.
    fn taken_mut(&mut self, seat: usize) -> &mut Seat {
        self.seats[seat].as_mut().expect("a taken seat")
    }

    /// Refusal 3: a seat above the last, or empty.
    fn check_seat(&self, seat: usize) -> Result<&Seat, Refusal> {
        self.client(seat).ok_or(refusal::SEAT)
    }

    /// Refusal 8: a number that names no route of this taken seat.
    fn check_number(&self, seat: usize, number: u8) -> Result<(), Refusal> {
        match self.taken(seat).wanted(number) {
            Some(_) => Ok(()),
            None => Err(refusal::ROUTE_NUMBER),
        }
    }
}

/// Refusal 10, which goes by the least output of the call even where nothing
/// would be written.
fn check_output(output_len: usize, least: usize) -> Result<(), Refusal> {
    if output_len < least {
        return Err(refusal::OUTPUT);
    }
    Ok(())
}

/// The routing response to a routing request.
fn routing_response(seat: usize, number: u8, key: &Key) -> Record {
    record(seat, &FromRelay::RoutingResponse { number, key: *key })
}

/// Whether no two of these keys are equal.
fn differ(keys: Vec<Key>) -> bool {
    (0..keys.len()).all(|place| !keys[..place].contains(&keys[place]))
}

#[cfg(test)]
#[path = "room_tests.rs"]
mod tests;

#[cfg(test)]
#[path = "tick_tests.rs"]
mod tick_tests;

#[cfg(test)]
#[path = "reconnect_tests.rs"]
mod reconnect_tests;
