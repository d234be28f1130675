//! Stored calls.

use crate::{Key, Seat};
use std::error::Error;
use std::fmt;

/// A call of the relay, to be stored and played: see
/// [`Room::play`](crate::Room::play). A [tick](crate::Room::tick) has no stored
/// form.
///
/// ```
/// use banavoge::{Call, Seat};
///
/// let mut calls = Vec::new();
/// Call::Leave { seat: Seat(7) }.store(&mut calls)?;
/// Call::Packet { seat: Seat(1), packet: b"\x10ab" }.store(&mut calls)?;
/// assert_eq!(calls, [1, 7, 0, 0, 2, 1, 0, 3, 0x10, b'a', b'b']);
/// # Ok::<(), banavoge::TooLong>(())
/// ```
#[derive(Debug, Clone, Copy, PartialEq, Eq)]
pub enum Call<'a> {
    /// [`Room::arrive`](crate::Room::arrive).
    Arrive {
        /// The key that arrives.
        key: Key,
    },
    /// [`Room::leave`](crate::Room::leave).
    Leave {
        /// The seat that is left.
        seat: Seat,
    },
    /// [`Room::packet`](crate::Room::packet).
    Packet {
        /// The seat of the sender.
        seat: Seat,
        /// The packet, which may be one that is refused.
        packet: &'a [u8],
    },
}

impl Call<'_> {
    /// Puts the stored call behind `calls`: 1 byte for the call (0 arrive, 1
    /// leave, 2 packet), 1 for the seat (0 where it names none), a 2-byte
    /// length, the higher byte first, and the bytes that the call is given. A
    /// call that has no stored form leaves `calls` as they were.
    pub fn store(&self, calls: &mut Vec<u8>) -> Result<(), TooLong> {
        let (call, seat, bytes) = match self {
            Call::Arrive { key } => (0, 0, &key.0[..]),
            Call::Leave { seat } => (1, seat.0, &[][..]),
            Call::Packet { seat, packet } => (2, seat.0, *packet),
        };
        let length = u16::try_from(bytes.len()).map_err(|_| TooLong)?;
        calls.extend([call, seat]);
        calls.extend(length.to_be_bytes());
        calls.extend(bytes);
        Ok(())
    }
}

/// A packet of more than 65,535 bytes has no stored form: two bytes cannot tell
/// its length.
#[derive(Debug, Clone, Copy, PartialEq, Eq)]
pub struct TooLong;

impl fmt::Display for TooLong {
    fn fmt(&self, f: &mut fmt::Formatter<'_>) -> fmt::Result {
        f.pad("packet of more than 65,535 bytes, which has no stored form")
    }
}

impl Error for TooLong {}
