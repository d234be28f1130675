//! What the relay sends.

use crate::Seat;
use std::iter::FusedIterator;

/// A packet for the client in a seat.
#[derive(Debug, Clone, Copy, PartialEq, Eq)]
pub struct Record<'a> {
    /// The seat of the client that it is for: of a [tick](crate::Room::tick),
    /// which may empty that seat, the client that sat there before the call.
    pub seat: Seat,
    /// The packet, as [`FromRelay::read`](crate::FromRelay::read) takes it, to
    /// be sealed and sent.
    pub packet: &'a [u8],
}

/// What one call sends: the records at the front of the output that was lent
/// to it, in the order in which they are to be sent.
///
/// ```
/// use banavoge::{Key, Record, Room, Seat, LEAST_OUTPUT};
///
/// let mut room = Room::empty();
/// let mut out = [0; LEAST_OUTPUT];
/// let seat = room.arrive(&Key([1; 32]), &mut out)?.seat;
///
/// let ping = [4, 0, 0, 0, 0, 0, 0, 0, 9];
/// let mut records = room.packet(seat, &ping, &mut out)?;
/// assert_eq!(records.as_bytes(), [0, 0, 9, 5, 0, 0, 0, 0, 0, 0, 0, 9]);
///
/// let pong = [5, 0, 0, 0, 0, 0, 0, 0, 9];
/// assert_eq!(records.next(), Some(Record { seat: Seat(0), packet: &pong }));
/// assert_eq!(records.next(), None);
/// # Ok::<(), banavoge::Refusal>(())
/// ```
#[derive(Debug, Clone, PartialEq, Eq)]
#[must_use = "packets that are not sent are lost"]
pub struct Records<'a> {
    bytes: &'a [u8],
}

impl<'a> Records<'a> {
    /// The records that the library wrote in these bytes.
    pub(crate) const fn written(bytes: &'a [u8]) -> Records<'a> {
        Records { bytes }
    }

    /// The records not shown yet, as they stand in the output: for each the
    /// seat (1 byte), the length of the packet (2 bytes, the higher first) and
    /// the packet. Before the first is shown, their count is document 01's
    /// count of the bytes written.
    pub const fn as_bytes(&self) -> &'a [u8] {
        self.bytes
    }
}

impl<'a> Iterator for Records<'a> {
    type Item = Record<'a>;

    fn next(&mut self) -> Option<Record<'a>> {
        if self.bytes.is_empty() {
            return None;
        }
        let (record, rest) = split_first(self.bytes).expect("the library writes whole records");
        self.bytes = rest;
        Some(record)
    }
}

impl FusedIterator for Records<'_> {}

/// The first record, and the bytes behind it.
fn split_first(bytes: &[u8]) -> Option<(Record<'_>, &[u8])> {
    let (&[seat, high, low], rest) = bytes.split_first_chunk()?;
    let length = u16::from_be_bytes([high, low]);
    let (packet, rest) = rest.split_at_checked(usize::from(length))?;
    let seat = Seat(seat);
    Some((Record { seat, packet }, rest))
}
