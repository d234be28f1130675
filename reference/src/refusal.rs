//! The refusal numbers, by name.

/// A refusal is the number that the rules give it.
pub type Refusal = u8;

/// An arrival of a key that is not seated, with all seats taken.
pub const ROOM_FULL: u8 = 1;
/// Retired by request 04 of document 02: no call gives it, and its number stays
/// reserved. It was for an arrival of a key that is already seated.
pub const SEATED: u8 = 2;
/// A seat above the last, or an empty one.
pub const SEAT: u8 = 3;
/// A packet of 0 bytes, or of more than 2,032.
pub const PACKET_SIZE: u8 = 4;
/// A kind that this end does not take.
pub const KIND: u8 = 5;
/// The wrong length for the kind.
pub const LENGTH: u8 = 6;
/// Ping number 0, in a ping, in a pong or in a tick.
pub const PING_NUMBER: u8 = 7;
/// In the room: a number that names no route. At the client's end: an answer
/// with number 1 to 15, or a connected or disconnected packet with a number
/// below 16.
pub const ROUTE_NUMBER: u8 = 8;
/// Data on a waiting route.
pub const WAITING: u8 = 9;
/// For an arrival, a leave or a packet call: an output of under 2,048 bytes. For a
/// tick: one of under 5,120 bytes. For a writer, and for a question put to buckets:
/// the output is shorter than what would be written. For the frame reader: a keep
/// of under 2,050 bytes. For buckets to be begun: memory of under 106,784 bytes.
pub const OUTPUT: u8 = 10;
/// The lent memory holds no whole room.
pub const ROOM: u8 = 11;
/// A list size that is not 1 to 16.
pub const LIST_SIZE: u8 = 12;
/// The key to remove is not held.
pub const NOT_HELD: u8 = 13;
/// A list longer than its size, not strictly rising in distance, or holding a
/// node of unknown family.
pub const LIST: u8 = 14;
/// An unknown family byte.
pub const FAMILY: u8 = 15;
/// A node cut short.
pub const NODE_CUT: u8 = 16;
/// Bytes left after four nodes.
pub const NODE_COUNT: u8 = 17;
/// A length under 17 or above 2,048, or a reader holding 2 or more bytes that
/// start no unfinished frame.
pub const FRAME: u8 = 18;
/// A clock that goes back: a tick whose time is before the clock.
pub const CLOCK: u8 = 19;
/// The lent memory holds no whole buckets: a wrong, doubled or base key, or a node
/// of unknown family.
pub const BUCKETS: u8 = 20;
