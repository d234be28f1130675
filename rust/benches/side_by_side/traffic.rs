//! Calls that clients make in a room, without end: some in each turn.
//!
//! They are thousands. With only some hundreds, made again and again, the
//! processor comes to predict where each search ends, and a call is measured
//! faster than it is in a room where nobody repeats the same packets.

use crate::rooms::Filling;
use reference::call::Call;
use reference::random::Random;
use reference::room::BASE;
use reference::seat::number_at;

/// Calls in turns, the first turn again after the last.
pub trait Traffic: Clone {
    /// How many turns there are.
    fn turns(&self) -> usize;

    /// Makes the calls of the next turn.
    fn turn(&mut self, make: impl FnMut(&Call));
}

/// Packets in a turn of a stream.
pub const PACKETS: usize = 512;

/// Turns of a stream.
const TURNS: usize = 16;

/// A packet of a stream: who sends it, and its first byte.
#[derive(Clone)]
pub struct Sent {
    pub seat: u8,
    pub first: u8,
}

/// Packets that differ in their seat and in their first byte alone, which is
/// the number of a data packet. The bytes behind are one buffer, and so in the
/// nearest cache: a host hands over packets that it has just opened.
#[derive(Clone)]
pub struct Stream {
    pub sent: Vec<Sent>,
    /// The call for one packet, in which seat and first byte are set.
    pub call: Call,
    next: usize,
}

impl Stream {
    /// Data of so many bytes, each on a connected route. In an empty room it is
    /// refused with 3.
    pub fn data(filling: &Filling, length: usize) -> Stream {
        let numbers = filling.routes().max(1);
        let first = |random: &mut Random| number_at(random.below(numbers));
        Stream::new(first, Random::new(2).bytes(length))
    }

    /// Pings, all with the same ping number.
    pub fn pings() -> Stream {
        Stream::new(|_| 4, vec![1; 8])
    }

    fn new(first: impl Fn(&mut Random) -> u8, rest: Vec<u8>) -> Stream {
        let mut random = Random::new(4);
        let sent = std::iter::repeat_with(|| Sent {
            seat: random.below(BASE.seats) as u8,
            first: first(&mut random),
        });
        Stream {
            sent: sent.take(TURNS * PACKETS).collect(),
            call: Call::Packet {
                seat: 0,
                bytes: [vec![0], rest].concat(),
            },
            next: 0,
        }
    }
}

impl Traffic for Stream {
    fn turns(&self) -> usize {
        TURNS
    }

    fn turn(&mut self, mut make: impl FnMut(&Call)) {
        for sent in &self.sent[self.next * PACKETS..][..PACKETS] {
            if let Call::Packet { seat, bytes } = &mut self.call {
                *seat = sent.seat;
                bytes[0] = sent.first;
            }
            make(&self.call);
        }
        self.next = (self.next + 1) % TURNS;
    }
}
