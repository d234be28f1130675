//! Arrivals of a key that is seated already, against the second program: request
//! 04 of document 02, "One call when a laptop comes back".
//!
//! Each is made once more as the two calls that it merges, a leave and then an
//! arrival. One call and two must come to the same answer, and to the same bytes
//! of the output and of the memory, also of what is no part of the room.

mod cases;
mod histories;
mod refusals;
mod scene;
mod two_calls;
