//! What an arrival comes to.

use crate::{Records, Seat};

/// An arrival that was accepted: see [`Room::arrive`](crate::Room::arrive).
#[derive(Debug, Clone, PartialEq, Eq)]
#[must_use = "packets that are not sent are lost"]
pub struct Arrival<'o> {
    /// The seat of the client from now on.
    pub seat: Seat,
    /// What is sent: where the key was seated already, each client that was
    /// connected with it is told disconnected. None of it is for the client that
    /// arrives.
    pub records: Records<'o>,
}
