//! A room in lent memory in which clients come, ask for each other and go: what a
//! reconnect meets.

use super::two_calls::arrive_again;
use crate::outcome::{make, Outcome};
use crate::output::Output;
use crate::relay::empty_room;
use reference::call::Call;
use reference::key::Key;
use reference::memory;
use reference::room::Room;

/// The key of a client.
pub fn client(number: u8) -> Key {
    [0x40 + number; 32]
}

pub fn arrival(number: u8) -> Call {
    Call::Arrive {
        key: client(number),
    }
}

/// The record that tells a seat that its number is disconnected.
pub fn told(seat: u8, number: u8) -> [u8; 5] {
    [seat, 0, 2, 3, number]
}

#[derive(Clone)]
pub struct Scene {
    pub memory: Output,
}

impl Scene {
    /// So many clients, each in the seat of its number.
    pub fn of(clients: u8) -> Scene {
        let memory = empty_room(clients);
        let mut scene = Scene { memory };
        for number in 0..clients {
            assert_eq!(scene.accepted(&arrival(number)).seat, number);
        }
        scene
    }

    /// Makes a call that is accepted.
    pub fn accepted(&mut self, call: &Call) -> Outcome {
        let mut out = vec![0; call.least_output()];
        let outcome = make(call, self.memory.lent(), &mut out);
        assert!(outcome.answer >= 0, "{call:?}: {outcome:?}");
        outcome
    }

    /// A client asks for another. Answers how many bytes are sent.
    pub fn asks(&mut self, number: u8, wanted: u8) -> usize {
        let bytes = [&[0], &client(wanted)[..]].concat();
        self.packet(number, bytes)
    }

    /// Two clients ask for each other.
    pub fn connect(&mut self, one: u8, other: u8) {
        self.asks(one, other);
        self.asks(other, one);
    }

    pub fn pong(&mut self, number: u8, ping: u8) {
        self.packet(number, vec![5, 0, 0, 0, 0, 0, 0, 0, ping]);
    }

    pub fn leaves(&mut self, number: u8) {
        let seat = self.seat(number);
        self.accepted(&Call::Leave { seat });
    }

    pub fn tick(&mut self, time: u64, ping: u64) {
        self.accepted(&Call::Tick { time, ping });
    }

    /// A seated client arrives again. Answers its seat and what is sent.
    pub fn comes_back(&mut self, number: u8) -> (u8, Vec<u8>) {
        arrive_again(&mut self.memory, &client(number))
    }

    /// The room that the memory holds.
    pub fn room(&self) -> Room {
        memory::decode(self.memory.clone().lent()).expect("a whole room")
    }

    fn seat(&self, number: u8) -> u8 {
        let seat = self.room().seat_of(&client(number));
        seat.expect("a seated client") as u8
    }

    fn packet(&mut self, number: u8, bytes: Vec<u8>) -> usize {
        let seat = self.seat(number);
        self.accepted(&Call::Packet { seat, bytes }).written()
    }
}
