//! A small generator of numbers, bytes, packets and nodes. The same seed gives
//! the same inputs again.

use reference::key::Key;
use reference::node::Node;
use reference::packet::{FromClient, FromRelay};

/// Connection numbers around each bound.
pub const ROUTE_NUMBERS: [u8; 10] = [0, 1, 2, 14, 15, 16, 17, 47, 48, 255];

/// The known families.
pub const FAMILIES: [u8; 4] = [2, 10, 130, 138];

/// Families that are not known: neighbours of the known ones, those of the
/// known ones with a bit changed, and the ends.
pub const UNKNOWN_FAMILIES: [u8; 16] = [
    0, 1, 3, 4, 6, 8, 9, 11, 66, 74, 128, 129, 131, 137, 139, 255,
];

/// The generator known as SplitMix64.
pub struct Generator {
    state: u64,
}

impl Generator {
    pub fn new(seed: u64) -> Generator {
        Generator { state: seed }
    }

    /// Any 64-bit number.
    pub fn number(&mut self) -> u64 {
        self.state = self.state.wrapping_add(0x9e37_79b9_7f4a_7c15);
        let mut mixed = self.state;
        mixed = (mixed ^ (mixed >> 30)).wrapping_mul(0xbf58_476d_1ce4_e5b9);
        mixed = (mixed ^ (mixed >> 27)).wrapping_mul(0x94d0_49bb_1331_11eb);
        mixed ^ (mixed >> 31)
    }

    /// A number from 0 to `bound` - 1.
    pub fn below(&mut self, bound: usize) -> usize {
        (self.number() % bound as u64) as usize
    }

    pub fn byte(&mut self) -> u8 {
        self.number() as u8
    }

    pub fn bytes(&mut self, length: usize) -> Vec<u8> {
        let mut bytes = vec![0; length];
        self.fill(&mut bytes);
        bytes
    }

    pub fn fill(&mut self, bytes: &mut [u8]) {
        for chunk in bytes.chunks_mut(8) {
            let number = self.number().to_le_bytes();
            chunk.copy_from_slice(&number[..chunk.len()]);
        }
    }

    pub fn key(&mut self) -> Key {
        let mut key = [0; 32];
        self.fill(&mut key);
        key
    }

    pub fn pick<T: Copy>(&mut self, choices: &[T]) -> T {
        choices[self.below(choices.len())]
    }

    /// Brings these in any order.
    pub fn shuffle<T>(&mut self, items: &mut [T]) {
        for place in 1..items.len() {
            items.swap(place, self.below(place + 1));
        }
    }

    /// A ping number that is not 0, often with most of its bits 0.
    fn ping_number(&mut self) -> u64 {
        match self.below(3) {
            0 => 1 << self.below(64),
            1 => 1 + self.number() % 1_000,
            _ => self.number().max(1),
        }
    }

    /// A payload of 1 to `longest` bytes, often a short one.
    fn payload(&mut self, longest: usize) -> Vec<u8> {
        let length = match self.below(8) {
            0 => 1 + self.below(longest),
            1 => longest - self.below(2),
            _ => 1 + self.below(40),
        };
        self.bytes(length)
    }

    /// A packet that the relay takes.
    pub fn packet_from_client(&mut self) -> FromClient {
        match self.below(6) {
            0 => FromClient::RoutingRequest { key: self.key() },
            1 => FromClient::Drop {
                number: self.byte(),
            },
            2 => FromClient::Ping {
                id: self.ping_number(),
            },
            3 => FromClient::Pong {
                id: self.ping_number(),
            },
            4 => FromClient::OobSend {
                key: self.key(),
                data: self.payload(1_024),
            },
            _ => FromClient::Data {
                number: self.byte().max(16),
                data: self.payload(2_031),
            },
        }
    }

    /// A packet that the client takes.
    pub fn packet_from_relay(&mut self) -> FromRelay {
        let number = self.byte().max(16);
        match self.below(7) {
            0 => FromRelay::RoutingResponse {
                number: self.pick(&[0, number]),
                key: self.key(),
            },
            1 => FromRelay::Connect { number },
            2 => FromRelay::Disconnect { number },
            3 => FromRelay::Ping {
                id: self.ping_number(),
            },
            4 => FromRelay::Pong {
                id: self.ping_number(),
            },
            5 => FromRelay::OobReceived {
                key: self.key(),
                data: self.payload(1_024),
            },
            _ => FromRelay::Data {
                number,
                data: self.payload(2_031),
            },
        }
    }

    /// A node of a known family, often with port 0. All 16 bytes of its
    /// address are filled, also where its family has but 4.
    pub fn node(&mut self) -> Node {
        let mut address = [0; 16];
        self.fill(&mut address);
        let any_port = self.number() as u16;
        Node {
            family: self.pick(&FAMILIES),
            address,
            port: self.pick(&[0, any_port, any_port, any_port]),
            key: self.key(),
        }
    }

    /// A family that is not known.
    pub fn unknown_family(&mut self) -> u8 {
        let family = self.byte();
        if FAMILIES.contains(&family) || self.below(2) == 0 {
            return self.pick(&UNKNOWN_FAMILIES);
        }
        family
    }

    /// The packet with one thing wrong: a byte changed, bytes cut off or bytes
    /// put on.
    pub fn damage(&mut self, mut packet: Vec<u8>) -> Vec<u8> {
        match self.below(6) {
            0 => {
                let place = self.below(packet.len());
                self.change_byte(&mut packet[place]);
            }
            1 | 2 => {
                // The kind and the numbers stand at the front.
                let place = self.below(packet.len().min(10));
                self.change_byte(&mut packet[place]);
            }
            3 => {
                let length = self.below(packet.len());
                packet.truncate(length);
            }
            4 => {
                let length = 1 + self.below(4);
                packet.extend(self.bytes(length));
            }
            _ => {
                let length = 1 + self.below(2_100);
                packet.extend(self.bytes(length));
            }
        }
        packet
    }

    /// Changes a byte, often to a low one, since the kinds and the numbers
    /// with rules of their own are low.
    fn change_byte(&mut self, byte: &mut u8) {
        let old = *byte;
        while *byte == old {
            *byte = match self.below(2) {
                0 => self.below(20) as u8,
                _ => self.byte(),
            };
        }
    }
}
