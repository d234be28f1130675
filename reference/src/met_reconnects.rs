//! What reconnects meet, beside the cases of `met`: arrivals of seated keys, by
//! request 04 of document 02, "One call when a laptop comes back".
//!
//! The cases are told by the room before the call and the room after it, and by
//! whether the call before was a reconnect of the same key.

use crate::key::Key;
use crate::met::Met;
use crate::met_ticks;
use crate::room::Room;
use crate::seat::Seat;

/// Every case of a reconnect but the two of pings, in no order.
pub const RECONNECT_CASES: [&str; 9] = [
    "reconnect without peers",
    "reconnect with peers",
    "reconnect that tells two peers or more",
    "reconnect in a full room",
    "reconnect in a full room, with peers",
    "reconnect into a lower seat",
    "reconnect into a lower seat, with peers",
    "reconnect into its own seat",
    "reconnect twice in a row",
];

/// The two of pings. They are among the cases of ticks, since only a tick brings
/// a ping.
pub const RECONNECT_PING_CASES: [&str; 2] = [
    "reconnect with a ping outstanding",
    "reconnect with a ping time before the clock",
];

/// How often each case of a reconnect was met, those of pings last.
pub fn reconnect_counts(met: &Met) -> Vec<(&'static str, usize)> {
    let others = RECONNECT_CASES.map(|case| (case, met.counts()[case]));
    let pings = RECONNECT_PING_CASES.map(|case| (case, met.tick_counts()[case]));
    others.into_iter().chain(pings).collect()
}

/// An accepted arrival of a key that was seated.
pub struct Reconnect<'a> {
    pub key: Key,
    pub before: &'a Room,
    pub after: &'a Room,
    /// Whether the call just before it was a reconnect of the same key.
    pub repeated: bool,
}

impl<'a> Reconnect<'a> {
    /// The seat that the key left, and the seat that it took.
    pub fn seats(&self) -> (usize, usize) {
        (
            seat_of(self.before, &self.key),
            seat_of(self.after, &self.key),
        )
    }

    /// The client as it was, and as it is.
    pub fn clients(&self) -> (&'a Seat, &'a Seat) {
        let (left, taken) = self.seats();
        let was = self.before.client(left).expect("a taken seat");
        let is = self.after.client(taken).expect("a taken seat");
        (was, is)
    }

    /// The seats of the peers that the client had.
    pub fn peers(&self) -> Vec<usize> {
        met_ticks::peers(self.before, self.seats().0)
    }

    /// The cases that it meets.
    pub fn cases(&self) -> Vec<&'static str> {
        let (left, taken) = self.seats();
        let peers = self.peers().len();
        let full = self.before.seats.iter().all(Option::is_some);
        let cases = [
            (peers == 0, "reconnect without peers"),
            (peers > 0, "reconnect with peers"),
            (peers > 1, "reconnect that tells two peers or more"),
            (full, "reconnect in a full room"),
            (full && peers > 0, "reconnect in a full room, with peers"),
            (taken < left, "reconnect into a lower seat"),
            (
                taken < left && peers > 0,
                "reconnect into a lower seat, with peers",
            ),
            (taken == left, "reconnect into its own seat"),
            (self.repeated, "reconnect twice in a row"),
        ];
        let met = cases.into_iter().filter(|(met, _)| *met);
        met.map(|(_, case)| case).collect()
    }
}

fn seat_of(room: &Room, key: &Key) -> usize {
    room.seat_of(key).expect("a seated key")
}

#[cfg(test)]
#[path = "met_reconnects_tests.rs"]
mod tests;
