//! The kinds that the readers answer: document 01's table "Relay packets". The
//! first byte of a data packet is its connection number, so all data packets
//! are told as 16.

pub const ROUTING_REQUEST: usize = 0;
pub const ROUTING_RESPONSE: usize = 1;
pub const CONNECT_NOTIFICATION: usize = 2;
/// From a client it is the drop of a route, from the relay a disconnect
/// notification.
pub const DISCONNECT: usize = 3;
pub const PING: usize = 4;
pub const PONG: usize = 5;
pub const OOB_SEND: usize = 6;
pub const OOB_RECEIVED: usize = 7;
pub const DATA: usize = 16;
