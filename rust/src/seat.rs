//! Seats.

use std::fmt;

/// A seat of a room: where one client sits from its arrival until it leaves, is
/// put out by a tick or arrives again.
///
/// It is no [`ConnectionNumber`](crate::ConnectionNumber): seat 17 and number
/// 17 have nothing to do with each other.
///
/// ```compile_fail,E0308
/// # use banavoge::{ConnectionNumber, Room, LEAST_OUTPUT};
/// let mut out = [0; LEAST_OUTPUT];
/// let _ = Room::empty().leave(ConnectionNumber(17), &mut out);
/// ```
///
/// Any byte can be written here. Whether there is such a seat, and whether
/// somebody sits there, is judged by the room.
#[derive(Debug, Clone, Copy, PartialEq, Eq, PartialOrd, Ord, Hash)]
pub struct Seat(pub u8);

impl Seat {
    /// The seat as an index, such as into the host's table of connections.
    ///
    /// ```
    /// use banavoge::{Room, Seat};
    ///
    /// let mut connections = vec!["nobody"; Room::SEATS];
    /// connections[Seat(3).index()] = "somebody";
    /// ```
    pub const fn index(self) -> usize {
        self.0 as usize
    }
}

impl fmt::Display for Seat {
    fn fmt(&self, f: &mut fmt::Formatter<'_>) -> fmt::Result {
        fmt::Display::fmt(&self.0, f)
    }
}
