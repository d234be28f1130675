//! Connection numbers.

use std::fmt;

/// The number of a route: what a client and the relay call one connection.
///
/// Each client has its own, so the two ends of a connection may have different
/// numbers for it. It is no [`Seat`](crate::Seat), and neither is taken where
/// the other belongs.
///
/// Any byte can be written here. Whether a packet may carry it is judged by
/// the library, and whether it names a route by the room.
#[derive(Debug, Clone, Copy, PartialEq, Eq, PartialOrd, Ord, Hash)]
pub struct ConnectionNumber(pub u8);

impl ConnectionNumber {
    /// The lowest number of a route, 16. As the first byte of a packet, this
    /// and every higher one say that it is a data packet.
    pub const FIRST: ConnectionNumber = ConnectionNumber(16);

    /// 0: in a routing response it says that the client got no number, for it
    /// had none free or asked for its own key.
    pub const NONE: ConnectionNumber = ConnectionNumber(0);
}

impl fmt::Display for ConnectionNumber {
    fn fmt(&self, f: &mut fmt::Formatter<'_>) -> fmt::Result {
        fmt::Display::fmt(&self.0, f)
    }
}
