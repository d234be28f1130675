//! A second program for the rules of the relay, written for comparison.
//!
//! It is meant to be easy to check by reading: it copies freely, searches from
//! front to back and follows the written rules in their own order. A refusal
//! is the number that the rules give it, as a plain `u8`.
//!
//! The relay itself is `room`, with `seat` and `record`; `call` and `play` are
//! histories of calls as bytes; `memory`, with `table`, and `lent` are the room
//! in lent memory. `generate`, with `random`, `bad_packet` and `ticking`, makes
//! histories up, and `met`, with `met_ticks` and `met_reconnects`, counts what they
//! meet. `frames` is the reader of a stream that comes in pieces, and `streams`
//! makes such streams up and cuts them. `node` is packed nodes, `nearest` the
//! nearest list, and `buckets` the nodes kept over the whole key space in lent
//! memory; `bucket_offers` makes up what is offered to buckets and asked of them,
//! and `met_buckets` counts what that meets.

pub mod bad_packet;
pub mod bucket_offers;
pub mod buckets;
pub mod call;
pub mod frames;
pub mod generate;
pub mod key;
pub mod lent;
pub mod memory;
pub mod met;
pub mod met_buckets;
pub mod met_reconnects;
pub mod met_ticks;
pub mod nearest;
pub mod node;
pub mod packet;
pub mod play;
pub mod random;
pub mod record;
pub mod refusal;
pub mod room;
pub mod seat;
pub mod streams;
pub mod table;
mod ticking;
