//! Relay packets: what each end sends and the other reads.

mod from_client;
mod from_relay;
mod kind;

pub use from_client::FromClient;
pub use from_relay::FromRelay;

use crate::answer::accepted;
use crate::{raw, Key, Refusal};

/// The most bytes that a packet has, its first byte included. A sealed packet
/// has at most 2,048 bytes, and sealing adds 16.
pub const LONGEST_PACKET: usize = 2_032;

/// The key that a reader finds in a packet.
fn key_of(packet: &[u8], reader: fn(&[u8], &mut raw::Key) -> i32) -> Result<Key, Refusal> {
    let mut key = Key([0; 32]);
    accepted(reader(packet, &mut key.0))?;
    Ok(key)
}
