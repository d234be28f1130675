//! Why a call is refused.

use std::error::Error;
use std::fmt;

/// A refusal: one row of document 01's table "Refusal numbers", or one of those
/// that document 02 adds behind them.
///
/// A refused call writes nothing, and room, list, buckets, output and piece are as
/// they were. A reader of frames that has refused a length refuses every call after
/// it: see [`Frames::next`](crate::Frames::next). A refusal prints the papers'
/// words.
///
/// ```
/// use banavoge::Refusal;
///
/// let refusal = Refusal::NotSeated;
/// assert_eq!(refusal.number(), 3);
/// assert_eq!(refusal.to_string(), "seat above 39, or empty");
/// assert_eq!(Refusal::from_number(3), Some(refusal));
/// assert!(Refusal::AlreadySeated.to_string().starts_with("retired: "));
/// ```
#[derive(Debug, Clone, Copy, PartialEq, Eq, Hash)]
#[repr(u8)]
pub enum Refusal {
    /// 1: a key arrives while all 40 seats are taken, none of them by this key.
    RoomFull = 1,
    /// 2: retired, and never given. In document 01 it was the arrival of a key
    /// already seated, which is accepted now; the number stays reserved.
    AlreadySeated = 2,
    /// 3: the seat is above 39, or empty.
    NotSeated = 3,
    /// 4: a packet of 0 bytes, or of more than 2,032.
    PacketSize = 4,
    /// 5: a kind that this end does not take.
    UnexpectedKind = 5,
    /// 6: the wrong length for the kind.
    WrongLength = 6,
    /// 7: ping number 0, in a ping, in a pong or in a tick.
    ZeroPing = 7,
    /// 8: in the room, a number that names no route; at the client's end, a
    /// routing response with number 1 to 15, or a connect or disconnect
    /// notification with a number below 16.
    NoSuchRoute = 8,
    /// 9: data on a route that waits.
    NotConnected = 9,
    /// 10: an output of under 2,048 bytes for an arrival, a packet or a leave, of
    /// under 5,120 for a tick, or one that is shorter than what a writer, or the
    /// answer of buckets, would write; a keep of under 2,050 bytes, which
    /// [`Frames`](crate::Frames) never lends, or memory too short for the
    /// [`Buckets`](crate::Buckets) that are begun in it, which they never lend.
    OutputTooShort = 10,
    /// 11: bytes that are no whole room, such as those of a room in which a seat
    /// names its own key, or was pinged at a time after the clock.
    RoomNotWhole = 11,
    /// 12: the size of a nearest list is not 1 to 16.
    ListSize = 12,
    /// 13: the key to remove is not held.
    KeyNotHeld = 13,
    /// 14: a nearest list that is longer than its size, not strictly rising in
    /// distance, or that holds a node of unknown family.
    ListNotWhole = 14,
    /// 15: an unknown family byte.
    UnknownFamily = 15,
    /// 16: a node that is cut short.
    NodeCutShort = 16,
    /// 17: bytes left after four nodes.
    BytesAfterNodes = 17,
    /// 18: a frame with a length under 17 or above 2,048, and after it every
    /// call of that reader.
    BadFrame = 18,
    /// 19: a tick with a time before the room's clock.
    ClockBack = 19,
    /// 20: bytes that are no whole buckets, such as those of buckets that hold a key
    /// in another bucket than its own, a key twice, the base key, or a node of
    /// unknown family.
    BucketsNotWhole = 20,
}

impl Refusal {
    /// All refusals, in the order of their numbers.
    pub const ALL: [Refusal; 20] = [
        Refusal::RoomFull,
        Refusal::AlreadySeated,
        Refusal::NotSeated,
        Refusal::PacketSize,
        Refusal::UnexpectedKind,
        Refusal::WrongLength,
        Refusal::ZeroPing,
        Refusal::NoSuchRoute,
        Refusal::NotConnected,
        Refusal::OutputTooShort,
        Refusal::RoomNotWhole,
        Refusal::ListSize,
        Refusal::KeyNotHeld,
        Refusal::ListNotWhole,
        Refusal::UnknownFamily,
        Refusal::NodeCutShort,
        Refusal::BytesAfterNodes,
        Refusal::BadFrame,
        Refusal::ClockBack,
        Refusal::BucketsNotWhole,
    ];

    /// The papers' number, 1 to 20.
    pub const fn number(self) -> u8 {
        self as u8
    }

    /// The refusal of a number; none of a number that the papers do not give.
    pub fn from_number(number: u8) -> Option<Refusal> {
        Refusal::ALL
            .into_iter()
            .find(|refusal| refusal.number() == number)
    }

    /// Document 01's words, from the column "Given exactly when"; document 02's
    /// for 18 to 20, for a key not seated, a keep and a tick's output. An arrival's
    /// output is worded as a tick's, and 2, which is never given, has "retired"
    /// before it.
    const fn words(self) -> &'static str {
        match self {
            Refusal::RoomFull => "arrival with all 40 seats taken, of a key not seated",
            Refusal::AlreadySeated => "retired: arrival of a key already seated",
            Refusal::NotSeated => "seat above 39, or empty",
            Refusal::PacketSize => "packet of 0 or more than 2,032 bytes",
            Refusal::UnexpectedKind => "a kind this end does not take",
            Refusal::WrongLength => "wrong length for the kind",
            Refusal::ZeroPing => "ping number 0",
            Refusal::NoSuchRoute => {
                "room: number names no route; laptop's end: answer with 1 to 15, or kind 2 or 3 below 16"
            }
            Refusal::NotConnected => "data on a waiting route",
            Refusal::OutputTooShort => {
                "lent output too short: under 2,048 for packet and leave, under the exact length for a writer; a keep that is too short; tick output under 5,120; arrival output under 2,048"
            }
            Refusal::RoomNotWhole => "room not whole",
            Refusal::ListSize => "list size not 1 to 16",
            Refusal::KeyNotHeld => "key to remove is not held",
            Refusal::ListNotWhole => {
                "list longer than its size, not strictly rising in distance, or holding an unknown family"
            }
            Refusal::UnknownFamily => "unknown family byte",
            Refusal::NodeCutShort => "node cut short",
            Refusal::BytesAfterNodes => "bytes left after four nodes",
            Refusal::BadFrame => {
                "a length under 17 or above 2,048; a reader holding 2 or more bytes that start no unfinished frame"
            }
            Refusal::ClockBack => "a clock that goes back",
            Refusal::BucketsNotWhole => "buckets that hold a wrong, doubled or base key",
        }
    }
}

impl fmt::Display for Refusal {
    fn fmt(&self, f: &mut fmt::Formatter<'_>) -> fmt::Result {
        f.pad(self.words())
    }
}

impl Error for Refusal {}

#[cfg(test)]
mod tests {
    use super::Refusal;

    #[test]
    fn the_numbers_are_1_to_20_and_name_their_refusals() {
        let numbers = Refusal::ALL.map(Refusal::number);
        assert!(numbers.into_iter().eq(1..=20));
        for number in 0..=255 {
            let named = Refusal::from_number(number).map(Refusal::number);
            assert_eq!(named, (1..=20).contains(&number).then_some(number));
        }
    }
}
