//! Histories made up for comparison: runs of calls that its seed fixes.
//!
//! Calls at random would be refused nearly always. The generator therefore
//! keeps a room of its own, makes each call on it, and looks at it to choose
//! the next one. It has moods that last for some calls, so that rooms and
//! tables get full, and empty again.
//!
//! There are histories without ticks, as stored calls have them, and histories
//! with ticks, whose time goes as `ticking` has it.

use crate::bad_packet::bad_packet;
use crate::call::{self, Call};
use crate::key::Key;
use crate::packet::{write_from_client, FromClient, LONGEST_PACKET};
use crate::random::Random;
use crate::room::{Room, Sizes, BASE};
use crate::seat::Seat;
use crate::ticking::{ping_number, Ticking};

/// The calls of a history of the base, from the empty room on, without ticks.
pub fn history(seed: u64, calls: usize) -> Vec<Call> {
    Generator::new(seed, BASE).take(calls).collect()
}

/// The calls of a history of the base, from the empty room on, with ticks.
pub fn history_with_ticks(seed: u64, calls: usize) -> Vec<Call> {
    Generator::with_ticks(seed, BASE).take(calls).collect()
}

/// A history without ticks, as stored calls.
pub fn stored_history(seed: u64, calls: usize) -> Vec<u8> {
    call::write_all(&history(seed, calls)).expect("no packet of over 65,535 bytes is made")
}

/// Goes through a history without end.
pub struct Generator {
    random: Random,
    /// The room after the calls made so far.
    room: Room,
    /// The keys that clients have: more than a room seats, and more than one
    /// client can ask for.
    keys: Vec<Key>,
    /// The keys of the clients that left last.
    left: Vec<Key>,
    mood: Mood,
    /// How many calls the mood lasts.
    lasts: usize,
    /// The seat that makes most requests in the mood of asking, and that many
    /// ask for in the mood of talking, so that it has many peers.
    favourite: usize,
    /// The seat of the last client that was made to ask for its own key.
    asked_itself: usize,
    /// The key of the last call, where that was an arrival of a seated key.
    reconnected: Option<Key>,
    /// The time, in a history with ticks.
    ticking: Option<Ticking>,
}

/// What most calls are about for a while.
#[derive(Debug, Clone, Copy, PartialEq, Eq)]
enum Mood {
    Arriving,
    Leaving,
    Asking,
    Talking,
    Garbling,
    /// Everybody asks for everybody. Only where there are ticks: these clients
    /// are put out together.
    Meeting,
}

/// The moods of any history.
const MOODS: [Mood; 5] = [
    Mood::Arriving,
    Mood::Leaving,
    Mood::Asking,
    Mood::Talking,
    Mood::Garbling,
];

impl Mood {
    /// Of a hundred calls, how many are arrivals, reconnects, leaves, requests,
    /// drops, data, out-of-band, pings and pongs, bad packets, calls of wrong
    /// seats. A reconnect frees all the numbers of its client, so there are few
    /// where tables are to get full.
    fn shares(self) -> [usize; 10] {
        match self {
            Mood::Arriving => [50, 5, 3, 20, 3, 6, 3, 2, 5, 3],
            Mood::Leaving => [10, 6, 40, 13, 5, 12, 3, 2, 5, 4],
            Mood::Asking => [4, 1, 1, 65, 4, 9, 4, 2, 6, 4],
            Mood::Talking => [4, 2, 3, 30, 13, 29, 8, 4, 4, 3],
            Mood::Garbling => [4, 1, 2, 12, 8, 12, 8, 8, 37, 8],
            Mood::Meeting => [8, 0, 0, 86, 1, 3, 1, 0, 1, 0],
        }
    }
}

impl Iterator for Generator {
    type Item = Call;

    fn next(&mut self) -> Option<Call> {
        if let Some(call) = self.timely() {
            self.make(&call);
            return Some(call);
        }
        if self.lasts == 0 {
            self.change_mood();
        }
        if self.mood_is_spent() {
            self.lasts = self.lasts.min(8);
        }
        self.lasts -= 1;
        let call = self.choose();
        self.make(&call);
        Some(call)
    }
}

impl Generator {
    /// A history without ticks.
    pub fn new(seed: u64, sizes: Sizes) -> Generator {
        let mut random = Random::new(seed);
        let keys = keys(&mut random, sizes.seats + sizes.numbers + 8);
        Generator {
            random,
            room: Room::empty(sizes),
            keys,
            left: Vec::new(),
            mood: Mood::Arriving,
            lasts: 60,
            favourite: 0,
            asked_itself: 0,
            reconnected: None,
            ticking: None,
        }
    }

    /// A history with ticks.
    pub fn with_ticks(seed: u64, sizes: Sizes) -> Generator {
        let mut generator = Generator::new(seed, sizes);
        generator.ticking = Some(Ticking::new(&mut generator.random));
        generator
    }

    /// The room after the calls made so far.
    pub fn room(&self) -> &Room {
        &self.room
    }

    fn change_mood(&mut self) {
        if let Some(ticking) = &mut self.ticking {
            if self.mood == Mood::Meeting {
                ticking.fall_silent(&mut self.random);
            } else if self.random.percent(6) {
                ticking.settle();
                return self.meet();
            }
        }
        self.mood = self.random.one_of(&MOODS).expect("a mood");
        self.lasts = 40 + self.random.below(100);
        self.favourite = self.any_taken();
    }

    /// Goes on in the mood of meeting, at times until all tables are full.
    fn meet(&mut self) {
        let seats = self.room.seats.len();
        let requests = seats * seats.min(self.room.numbers);
        self.mood = Mood::Meeting;
        self.lasts = 20 + self.random.below(1 + requests + requests / 4);
    }

    /// Whether there is little left to do in this mood: nobody more can arrive,
    /// few are left to leave, or no table has a free number.
    fn mood_is_spent(&self) -> bool {
        let taken = self.taken().len();
        match self.mood {
            Mood::Arriving => taken == self.room.seats.len(),
            Mood::Leaving => taken < 3,
            Mood::Meeting => taken == self.room.seats.len() && self.tables_are_full(),
            _ => false,
        }
    }

    fn choose(&mut self) -> Call {
        // Calls of a nearly empty room would mostly be refused with 3.
        if self.taken().len() < 2 && self.random.percent(60) {
            return self.arrival();
        }
        if let Some(key) = self.reconnected {
            if self.random.percent(10) {
                return Call::Arrive { key };
            }
        }
        match self.kind_of_call() {
            0 => self.arrival(),
            1 => self.reconnect(),
            2 => self.departure(),
            3 => self.request(),
            4 => self.drop_route(),
            5 => self.data(),
            6 => self.out_of_band(),
            7 => self.ping_or_pong(),
            8 => self.bad_packet(),
            _ => self.wrong_seat(),
        }
    }

    /// The place of the next call among the shares of the mood.
    fn kind_of_call(&mut self) -> usize {
        let mut rest = self.random.below(100);
        for (kind, share) in self.mood.shares().into_iter().enumerate() {
            if rest < share {
                return kind;
            }
            rest -= share;
        }
        unreachable!("the shares are a hundred in all")
    }

    /// Makes the call on the own room, and remembers who left, who came back and
    /// who is pinged.
    fn make(&mut self, call: &Call) {
        let clients = self.room.seats.iter().flatten();
        let seated: Vec<Key> = clients.map(|client| client.key).collect();
        // What is refused changes nothing, and is part of the history.
        let answer = call.make(&mut self.room, call.least_output());
        self.reconnected = match call {
            Call::Arrive { key } if seated.contains(key) => Some(*key),
            _ => None,
        };
        let gone = |key: &Key| self.room.seat_of(key).is_none();
        self.left.extend(seated.into_iter().filter(gone));
        while self.left.len() > 8 {
            self.left.remove(0);
        }
        if let (Call::Tick { ping, .. }, Ok(accepted), Some(ticking)) =
            (call, answer, &mut self.ticking)
        {
            ticking.note(&mut self.random, *ping, &accepted.records);
        }
    }
}

/// Time, in a history with ticks.
impl Generator {
    /// A tick or a pong, if it is time for one.
    fn timely(&mut self) -> Option<Call> {
        let ticking = self.ticking.as_mut()?;
        if let Some((seat, id)) = ticking.next_pong(&mut self.random) {
            return Some(self.packet(seat, &FromClient::Pong { id }));
        }
        if let Some((time, ping)) = ticking.next_tick(&mut self.random, self.room.clock) {
            return Some(Call::Tick { time, ping });
        }
        if self.random.percent(5) {
            return Some(self.any_pong());
        }
        None
    }

    /// A pong with the outstanding number, with another client's, with that of a
    /// former ping, or with any; often of a client that has one outstanding.
    fn any_pong(&mut self) -> Call {
        let seat = match self.random.below(2) {
            0 => self.seat_that_owes_a_pong(),
            _ => None,
        };
        let seat = seat.unwrap_or_else(|| self.any_taken());
        let id = match self.random.below(10) {
            0..=1 => self.outstanding(seat),
            2..=4 => self.anothers_outstanding(seat),
            5..=8 => self.former_ping(),
            _ => None,
        };
        let id = id.unwrap_or_else(|| ping_number(&mut self.random));
        self.packet(seat, &FromClient::Pong { id })
    }

    /// A taken seat with a ping not yet answered.
    fn seat_that_owes_a_pong(&mut self) -> Option<usize> {
        let mut seats = self.taken();
        seats.retain(|seat| self.outstanding(*seat).is_some());
        self.random.one_of(&seats)
    }

    /// The number that this seat has not yet answered.
    fn outstanding(&self, seat: usize) -> Option<u64> {
        let client = self.room.client(seat)?;
        client.owes_pong().then_some(client.outstanding)
    }

    /// A number that another seat has not yet answered, and this one does not owe.
    fn anothers_outstanding(&mut self, seat: usize) -> Option<u64> {
        let own = self.outstanding(seat);
        let all = self.taken().into_iter();
        let numbers: Vec<u64> = all
            .filter_map(|other| self.outstanding(other))
            .filter(|number| Some(*number) != own)
            .collect();
        self.random.one_of(&numbers)
    }

    fn former_ping(&mut self) -> Option<u64> {
        self.ticking.as_ref()?.former(&mut self.random)
    }
}

/// The calls.
impl Generator {
    /// Often one that just left, else any key that is not seated.
    fn arrival(&mut self) -> Call {
        let key = match self.random.below(10) {
            0..=3 => self.key_that_left(),
            _ => None,
        };
        let key = key.or_else(|| self.absent_key());
        Call::Arrive {
            key: key.unwrap_or_else(|| self.any_key()),
        }
    }

    /// An arrival of a seated key: often of one that has peers, who are told so, of
    /// one that comes to another seat, or of one that has not answered its ping.
    fn reconnect(&mut self) -> Call {
        let seat = match self.random.below(10) {
            0..=2 => self.seat_with_peers(1),
            3..=4 => self.seat_with_peers(2),
            5 => self.seat_with_another_empty_below(),
            6..=7 => self.seat_that_owes_a_pong(),
            _ => None,
        };
        let key = seat.and_then(|seat| self.own_key(seat));
        let key = key.or_else(|| self.seated_key());
        Call::Arrive {
            key: key.unwrap_or_else(|| self.any_key()),
        }
    }

    /// Often one that has peers, who are told so.
    fn departure(&mut self) -> Call {
        let seat = match self.random.below(10) {
            0..=1 => self.favourite,
            2..=5 => self.connected_number().0,
            _ => self.any_taken(),
        };
        Call::Leave { seat: seat as u8 }
    }

    fn request(&mut self) -> Call {
        if self.mood == Mood::Meeting && self.random.percent(97) {
            return self.request_in_a_meeting();
        }
        if self.random.percent(6) {
            return self.request_for_itself();
        }
        let asks = match self.mood {
            Mood::Asking => 80,
            Mood::Talking => 30,
            _ => 5,
        };
        let seat = if self.random.percent(asks) {
            self.favourite
        } else {
            self.any_taken()
        };
        let key = match self.random.below(19) {
            0 => self.named_key(seat),
            1..=8 => self.key_that_waits_for(seat),
            9..=11 if seat != self.favourite => self.own_key(self.favourite),
            12..=14 => self.seated_key(),
            15 => self.fresh_key(),
            _ => None,
        };
        let key = key.unwrap_or_else(|| self.any_key());
        self.packet(seat, &FromClient::RoutingRequest { key })
    }

    /// A request that connects, or one for a seated client not asked for yet; with
    /// none such, another client comes.
    fn request_in_a_meeting(&mut self) -> Call {
        let seat = self.seat_with_free_number();
        let seat = seat.unwrap_or_else(|| self.any_taken());
        let key = match self.random.below(10) {
            0..=7 => self.key_that_waits_for(seat),
            _ => None,
        };
        match key.or_else(|| self.key_to_meet(seat)) {
            Some(key) => self.packet(seat, &FromClient::RoutingRequest { key }),
            None => self.arrival(),
        }
    }

    /// A request for the own key: by a client with an empty table or a full one,
    /// often by the one that asked so last, else by any.
    fn request_for_itself(&mut self) -> Call {
        let seat = match self.random.below(10) {
            0 => self.seat_with_empty_table(),
            1..=4 => self.seat_with_full_table(),
            5..=8 => self.seat_that_asked_itself(),
            _ => None,
        };
        let seat = seat.unwrap_or_else(|| self.any_taken());
        self.asked_itself = seat;
        let key = self.own_key(seat).unwrap_or_else(|| self.any_key());
        self.packet(seat, &FromClient::RoutingRequest { key })
    }

    fn drop_route(&mut self) -> Call {
        let (seat, number) = match self.random.below(10) {
            0..=4 => self.connected_number(),
            5..=7 => self.held_number(),
            _ => self.any_number(),
        };
        self.packet(seat, &FromClient::Drop { number })
    }

    fn data(&mut self) -> Call {
        let (seat, number) = match self.random.below(20) {
            0..=12 => self.connected_number(),
            13..=16 => self.held_number(),
            _ => self.any_number(),
        };
        // Below 16 it would be another kind.
        let number = number.max(16);
        let length = self.length(LONGEST_PACKET - 1);
        let data = self.random.bytes(length);
        self.packet(seat, &FromClient::Data { number, data })
    }

    fn out_of_band(&mut self) -> Call {
        let seat = self.any_taken();
        let key = match self.random.below(10) {
            0 => self.own_key(seat),
            1..=5 => self.seated_key(),
            6..=8 => self.absent_key(),
            _ => self.fresh_key(),
        };
        let key = key.unwrap_or_else(|| self.any_key());
        let length = self.length(1_024);
        let data = self.random.bytes(length);
        self.packet(seat, &FromClient::OobSend { key, data })
    }

    fn ping_or_pong(&mut self) -> Call {
        let seat = self.any_taken();
        let id = ping_number(&mut self.random);
        if self.random.percent(60) {
            self.packet(seat, &FromClient::Ping { id })
        } else {
            self.packet(seat, &FromClient::Pong { id })
        }
    }

    fn bad_packet(&mut self) -> Call {
        Call::Packet {
            seat: self.any_taken() as u8,
            bytes: bad_packet(&mut self.random),
        }
    }

    /// A leave or a packet, good or bad, of an empty seat or one above the last.
    fn wrong_seat(&mut self) -> Call {
        let seat = self.seat_not_taken();
        if self.random.percent(30) {
            return Call::Leave { seat };
        }
        let bytes = if self.random.percent(50) {
            bad_packet(&mut self.random)
        } else {
            vec![4, 0, 0, 0, 0, 0, 0, 0, 1]
        };
        Call::Packet { seat, bytes }
    }

    /// The call with which the client in this seat sends this packet.
    fn packet(&self, seat: usize, packet: &FromClient) -> Call {
        let mut out = [0; LONGEST_PACKET];
        let count = write_from_client(packet, &mut out).expect("a packet that may be sent");
        Call::Packet {
            seat: seat as u8,
            bytes: out[..count].to_vec(),
        }
    }

    /// A length from 1 to the longest: mostly short, at times at an end.
    fn length(&mut self, longest: usize) -> usize {
        match self.random.below(40) {
            0 => longest,
            1 => longest - 1,
            2 => 1 + self.random.below(longest),
            3..=12 => 1,
            _ => 1 + self.random.below(12),
        }
    }
}

/// What is in the room, to choose from.
impl Generator {
    fn taken(&self) -> Vec<usize> {
        (0..self.room.seats.len())
            .filter(|seat| self.room.client(*seat).is_some())
            .collect()
    }

    /// A taken seat, or seat 0 in an empty room.
    fn any_taken(&mut self) -> usize {
        let taken = self.taken();
        self.random.one_of(&taken).unwrap_or(0)
    }

    /// The seat that asked for its own key last, where it is taken.
    fn seat_that_asked_itself(&self) -> Option<usize> {
        self.room.client(self.asked_itself)?;
        Some(self.asked_itself)
    }

    /// A taken seat of which no number names a route.
    fn seat_with_empty_table(&mut self) -> Option<usize> {
        let mut seats = self.taken();
        seats.retain(|seat| self.held(*seat).is_empty());
        self.random.one_of(&seats)
    }

    /// A taken seat of which every number names a route.
    fn seat_with_full_table(&mut self) -> Option<usize> {
        let mut seats = self.taken();
        seats.retain(|seat| self.held(*seat).len() == self.room.numbers);
        self.random.one_of(&seats)
    }

    fn tables_are_full(&self) -> bool {
        let mut clients = self.room.seats.iter().flatten();
        clients.all(|client| client.lowest_free().is_none())
    }

    /// A seat that is connected with so many others or more.
    fn seat_with_peers(&mut self, least: usize) -> Option<usize> {
        let mut seats = self.taken();
        seats.retain(|seat| self.connected(*seat).len() >= least);
        self.random.one_of(&seats)
    }

    /// A taken seat with an empty one below it, and with peers if there is one such.
    fn seat_with_another_empty_below(&mut self) -> Option<usize> {
        let empty = self.room.seats.iter().position(Option::is_none)?;
        let mut above = self.taken();
        above.retain(|seat| *seat > empty);
        let mut connected = above.clone();
        connected.retain(|seat| !self.connected(*seat).is_empty());
        let seat = self.random.one_of(&connected);
        seat.or_else(|| self.random.one_of(&above))
    }

    /// A taken seat of which some number names no route.
    fn seat_with_free_number(&mut self) -> Option<usize> {
        let mut seats = self.taken();
        seats.retain(|seat| self.held(*seat).len() < self.room.numbers);
        self.random.one_of(&seats)
    }

    /// An empty seat, or one above the last.
    fn seat_not_taken(&mut self) -> u8 {
        let empty: Vec<u8> = (0..self.room.seats.len())
            .filter(|seat| self.room.client(*seat).is_none())
            .map(|seat| seat as u8)
            .collect();
        let above = self.room.seats.len() as u8..=255;
        let above: Vec<u8> = above.collect();
        let first_above = above[0];
        match self.random.below(4) {
            0 => first_above,
            1 => self.random.one_of(&above).unwrap_or(first_above),
            _ => self.random.one_of(&empty).unwrap_or(first_above),
        }
    }

    fn any_key(&mut self) -> Key {
        self.random.one_of(&self.keys).expect("a key")
    }

    /// A key that is none of the clients'.
    fn fresh_key(&mut self) -> Option<Key> {
        Some(self.random.key())
    }

    fn seated_key(&mut self) -> Option<Key> {
        let seat = self.any_taken();
        self.own_key(seat)
    }

    fn absent_key(&mut self) -> Option<Key> {
        let absent: Vec<Key> = self
            .keys
            .iter()
            .filter(|key| self.room.seat_of(key).is_none())
            .copied()
            .collect();
        self.random.one_of(&absent)
    }

    /// A key that left not long ago and is not back.
    fn key_that_left(&mut self) -> Option<Key> {
        let mut away = self.left.clone();
        away.retain(|key| self.room.seat_of(key).is_none());
        self.random.one_of(&away)
    }

    fn own_key(&self, seat: usize) -> Option<Key> {
        self.room.client(seat).map(|client| client.key)
    }

    /// A key that this seat asked for already.
    fn named_key(&mut self, seat: usize) -> Option<Key> {
        let client = self.room.client(seat)?;
        let named: Vec<Key> = client.routes.iter().flatten().copied().collect();
        self.random.one_of(&named)
    }

    /// The key of a client whose request for this seat's key waits.
    fn key_that_waits_for(&mut self, seat: usize) -> Option<Key> {
        let own = self.room.client(seat)?;
        let waits = |other: &&Seat| {
            other.number_for(&own.key).is_some() && own.number_for(&other.key).is_none()
        };
        let waiting: Vec<Key> = self
            .room
            .seats
            .iter()
            .flatten()
            .filter(waits)
            .map(|other| other.key)
            .collect();
        self.random.one_of(&waiting)
    }

    /// The key of another client that this seat has not asked for, and that can
    /// ask back.
    fn key_to_meet(&mut self, seat: usize) -> Option<Key> {
        let own = self.room.client(seat)?;
        let can_meet = |other: &&Seat| {
            other.key != own.key
                && own.number_for(&other.key).is_none()
                && other.lowest_free().is_some()
        };
        let others = self.room.seats.iter().flatten().filter(can_meet);
        let keys: Vec<Key> = others.map(|other| other.key).collect();
        self.random.one_of(&keys)
    }

    /// A number of a seat that is connected; after some tries just a held one.
    fn connected_number(&mut self) -> (usize, u8) {
        for _ in 0..8 {
            let seat = self.any_taken();
            let connected = self.connected(seat);
            if let Some(number) = self.random.one_of(&connected) {
                return (seat, number);
            }
        }
        self.held_number()
    }

    /// A number of a seat that names a route; after some tries any number.
    fn held_number(&mut self) -> (usize, u8) {
        for _ in 0..4 {
            let seat = self.any_taken();
            let held = self.held(seat);
            if let Some(number) = self.random.one_of(&held) {
                return (seat, number);
            }
        }
        self.any_number()
    }

    /// A seat and any number, mostly one that could name a route.
    fn any_number(&mut self) -> (usize, u8) {
        let seat = self.any_taken();
        let number = match self.random.below(4) {
            0 => self.random.byte(),
            _ => 16 + self.random.below(self.room.numbers + 1).min(239) as u8,
        };
        (seat, number)
    }

    /// The numbers of this seat that are connected.
    fn connected(&self, seat: usize) -> Vec<u8> {
        let mut numbers = self.held(seat);
        numbers.retain(|number| self.room.peer(seat, *number).is_some());
        numbers
    }

    /// The numbers of this seat that name a route.
    fn held(&self, seat: usize) -> Vec<u8> {
        let Some(client) = self.room.client(seat) else {
            return Vec::new();
        };
        client
            .numbers()
            .filter(|number| client.wanted(*number).is_some())
            .collect()
    }
}

/// So many different keys, the lowest and the highest among them. Some differ
/// in their first byte alone and some in their last, since keys are compared
/// byte by byte.
fn keys(random: &mut Random, count: usize) -> Vec<Key> {
    let like = random.key();
    let mut keys = vec![[0; 32], [0xff; 32]];
    while keys.len() < count {
        let mut key = like;
        match random.below(4) {
            0 => key = random.key(),
            1 => key[0] = random.byte(),
            2 => key[31] = random.byte(),
            _ => key[random.below(32)] = random.byte(),
        }
        if !keys.contains(&key) {
            keys.push(key);
        }
    }
    keys
}

#[cfg(test)]
#[path = "generate_tests.rs"]
mod tests;

#[cfg(test)]
#[path = "standing_tests.rs"]
mod standing_tests;

#[cfg(test)]
#[path = "two_calls_tests.rs"]
mod two_calls_tests;
