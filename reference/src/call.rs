//! Calls, and stored calls: a history as bytes.
//!
//! A stored call is 1 byte for the call (0 arrive, 1 leave, 2 packet), 1 for
//! the seat (0 where it names none), a 2-byte length with the higher byte
//! first, and the bytes the call is given. No other form is one: an arrive has
//! seat 0 and the 32 bytes of its key, a leave has no bytes. A tick has no
//! stored form.

use crate::key::Key;
use crate::refusal::Refusal;
use crate::room::{Accepted, Room, LEAST_OUTPUT, LEAST_TICK_OUTPUT};

/// The bytes before those that the call is given.
const HEAD: usize = 4;

const ARRIVE: u8 = 0;
const LEAVE: u8 = 1;
const PACKET: u8 = 2;

/// A call. Its seat is any byte: whether there is such a seat, and whether the
/// bytes are a packet, is for the room to judge. So it is with the time and the
/// ping number of a tick.
#[derive(Debug, Clone, PartialEq, Eq)]
pub enum Call {
    Arrive { key: Key },
    Leave { seat: u8 },
    Packet { seat: u8, bytes: Vec<u8> },
    Tick { time: u64, ping: u64 },
}

impl Call {
    /// Makes this call on a room.
    pub fn make(&self, room: &mut Room, output_len: usize) -> Result<Accepted, Refusal> {
        match self {
            Call::Arrive { key } => room.arrive(key, output_len),
            Call::Leave { seat } => room.leave(usize::from(*seat), output_len),
            Call::Packet { seat, bytes } => room.packet(usize::from(*seat), bytes, output_len),
            Call::Tick { time, ping } => room.tick(*time, *ping, output_len),
        }
    }

    /// The output with which this call does not get refusal 10.
    pub fn least_output(&self) -> usize {
        match self {
            Call::Arrive { .. } | Call::Leave { .. } | Call::Packet { .. } => LEAST_OUTPUT,
            Call::Tick { .. } => LEAST_TICK_OUTPUT,
        }
    }
}

/// Reads the stored call at the front of `stored`, which more may follow.
/// Answers it and how many bytes it has; none where it is no stored call.
pub fn read(stored: &[u8]) -> Option<(Call, usize)> {
    let head = stored.get(..HEAD)?;
    let (call, seat) = (head[0], head[1]);
    let end = HEAD + usize::from(head[2]) * 256 + usize::from(head[3]);
    let bytes = stored.get(HEAD..end)?;
    Some((form(call, seat, bytes)?, end))
}

/// The stored form of a call; none for a packet of more than 65,535 bytes,
/// whose length two bytes cannot tell, and none for a tick.
pub fn write(call: &Call) -> Option<Vec<u8>> {
    let (first, seat, bytes) = match call {
        Call::Arrive { key } => (ARRIVE, 0, &key[..]),
        Call::Leave { seat } => (LEAVE, *seat, &[][..]),
        Call::Packet { seat, bytes } => (PACKET, *seat, &bytes[..]),
        Call::Tick { .. } => return None,
    };
    let length = u16::try_from(bytes.len()).ok()?;
    Some([&[first, seat], &length.to_be_bytes()[..], bytes].concat())
}

/// The calls of a history, one behind the other. Answers none if one of them
/// has no stored form.
pub fn write_all(calls: &[Call]) -> Option<Vec<u8>> {
    let stored: Option<Vec<Vec<u8>>> = calls.iter().map(write).collect();
    Some(stored?.concat())
}

/// The call with these parts, where they are the form of one.
fn form(call: u8, seat: u8, bytes: &[u8]) -> Option<Call> {
    match call {
        ARRIVE if seat == 0 => Some(Call::Arrive {
            key: bytes.try_into().ok()?,
        }),
        LEAVE if bytes.is_empty() => Some(Call::Leave { seat }),
        PACKET => Some(Call::Packet {
            seat,
            bytes: bytes.to_vec(),
        }),
        _ => None,
    }
}

#[cfg(test)]
mod tests {
    use super::*;
    use crate::room::BASE;

    const KA: Key = [0x11; 32];

    /// The call is written as these bytes and these bytes are read as the call,
    /// alone and with more behind them; cut anywhere they are no call.
    fn stands_as(call: &Call, stored: &[u8]) {
        assert_eq!(write(call), Some(stored.to_vec()));
        assert_eq!(read(stored), Some((call.clone(), stored.len())));
        let longer = [stored, &[0xff; 3]].concat();
        assert_eq!(read(&longer), Some((call.clone(), stored.len())));
        for length in 0..stored.len() {
            assert_eq!(read(&stored[..length]), None);
        }
    }

    #[test]
    fn each_call_has_its_stored_form() {
        let arrive = [&[0, 0, 0, 32], &KA[..]].concat();
        stands_as(&Call::Arrive { key: KA }, &arrive);
        stands_as(&Call::Leave { seat: 7 }, &[1, 7, 0, 0]);
        let (seat, bytes) = (255, vec![0x10, 0x61, 0x62]);
        stands_as(&Call::Packet { seat, bytes }, &[2, 255, 0, 3, 16, 97, 98]);
        let (seat, bytes) = (3, Vec::new());
        stands_as(&Call::Packet { seat, bytes }, &[2, 3, 0, 0]);
    }

    #[test]
    fn lengths_have_their_higher_byte_first_and_go_to_65_535() {
        for length in [255, 256, 258, 2_033, 65_535] {
            let (seat, bytes) = (1, vec![0x61; length]);
            let stored = write(&Call::Packet { seat, bytes }).unwrap();
            assert_eq!(stored.len(), 4 + length);
            assert_eq!(stored[2..4], [(length / 256) as u8, (length % 256) as u8]);
            assert_eq!(read(&stored).map(|(_, end)| end), Some(stored.len()));
        }
        let (seat, bytes) = (1, vec![0x61; 65_536]);
        assert_eq!(write(&Call::Packet { seat, bytes }), None);
    }

    #[test]
    fn no_other_form_is_a_stored_call() {
        // An arrive with a seat, and with 31 and 33 bytes.
        assert_eq!(read(&[&[0, 1, 0, 32], &KA[..]].concat()), None);
        assert_eq!(read(&[&[0, 0, 0, 31], &KA[..]].concat()), None);
        assert_eq!(read(&[&[0, 0, 0, 33], &KA[..], &[0]].concat()), None);
        assert_eq!(read(&[0, 0, 0, 0]), None);
        // A leave with bytes.
        assert_eq!(read(&[1, 0, 0, 1, 0]), None);
        // Every other first byte.
        for call in 3..=255 {
            assert_eq!(read(&[call, 0, 0, 0]), None);
            assert_eq!(read(&[&[call, 0, 0, 32], &KA[..]].concat()), None);
        }
    }

    #[test]
    fn a_tick_has_no_stored_form() {
        let tick = Call::Tick { time: 1, ping: 1 };
        assert_eq!(write(&tick), None);
        assert_eq!(write_all(&[Call::Leave { seat: 7 }, tick]), None);
        // Nor is one read: the call 3 with a time and a ping number.
        for seat in [0, 1] {
            let head = [3, seat, 0, 16];
            assert_eq!(read(&[&head[..], &[1; 16]].concat()), None);
        }
    }

    #[test]
    fn a_call_is_made_on_a_room() {
        let mut room = Room::empty(BASE);
        let arrive = Call::Arrive { key: KA };
        assert_eq!(arrive.make(&mut room, 2_047), Err(10));
        // The second is of a seated key.
        for _ in 0..2 {
            let answer = arrive.make(&mut room, 2_048);
            assert_eq!(answer.map(|answer| answer.seat), Ok(0));
        }
        assert_eq!(arrive.make(&mut room, 2_047), Err(10));
        let (seat, bytes) = (0, vec![0x10]);
        let packet = Call::Packet { seat, bytes };
        assert_eq!(packet.make(&mut room, 2_048), Err(6));
        assert_eq!(packet.make(&mut room, 2_047), Err(10));
        let leave = Call::Leave { seat: 0 };
        assert_eq!(leave.make(&mut room, 2_047), Err(10));
        assert_eq!(
            leave.make(&mut room, 2_048).map(|answer| answer.seat),
            Ok(0)
        );
        assert_eq!(leave.make(&mut room, 2_048), Err(3));
        let tick = Call::Tick { time: 5, ping: 1 };
        assert_eq!(tick.make(&mut room, 5_119), Err(10));
        assert_eq!(tick.make(&mut room, 5_120).map(|answer| answer.seat), Ok(0));
        assert_eq!(room.clock, 5);
    }

    #[test]
    fn each_call_has_its_least_output() {
        let (seat, bytes) = (0, Vec::new());
        assert_eq!(Call::Arrive { key: KA }.least_output(), 2_048);
        assert_eq!(Call::Leave { seat }.least_output(), 2_048);
        assert_eq!(Call::Packet { seat, bytes }.least_output(), 2_048);
        assert_eq!(Call::Tick { time: 0, ping: 0 }.least_output(), 5_120);
    }
}
