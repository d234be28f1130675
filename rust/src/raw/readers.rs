//! The readers of both ends, with the places that they write into lent by the
//! caller. Each answers the kind of the packet, 16 for data.

use super::Key;

extern "C" {
    fn banavoge_relay_read(
        packet: *const u8,
        packet_length: usize,
        number: *mut u8,
        ping: *mut u64,
        start: *mut usize,
        length: *mut usize,
    ) -> i32;

    fn banavoge_client_read(
        packet: *const u8,
        packet_length: usize,
        number: *mut u8,
        ping: *mut u64,
        start: *mut usize,
        length: *mut usize,
    ) -> i32;

    fn banavoge_relay_key(packet: *const u8, packet_length: usize, key: *mut Key) -> i32;

    fn banavoge_client_key(packet: *const u8, packet_length: usize, key: *mut Key) -> i32;
}

/// The places that a reader writes into; what a packet of its kind does not
/// have becomes 0.
#[derive(Debug, Clone, Copy, PartialEq, Eq, Default)]
pub struct Places {
    /// The connection number.
    pub number: u8,
    /// The ping number.
    pub ping: u64,
    /// Where the payload starts in the packet.
    pub start: usize,
    /// How many bytes the payload has.
    pub length: usize,
}

impl Places {
    /// The payload, as a part of the packet that was read; no bytes where a
    /// packet of its kind has none.
    pub fn payload<'a>(&self, packet: &'a [u8]) -> &'a [u8] {
        &packet[self.start..][..self.length]
    }
}

/// Reads a packet at the relay's end.
pub fn relay_read(packet: &[u8], places: &mut Places) -> i32 {
    // SAFETY: the pointers come from references to the packet, whose count is
    // its own, and to the four places.
    unsafe {
        banavoge_relay_read(
            packet.as_ptr(),
            packet.len(),
            &mut places.number,
            &mut places.ping,
            &mut places.start,
            &mut places.length,
        )
    }
}

/// Reads a packet at the client's end.
pub fn client_read(packet: &[u8], places: &mut Places) -> i32 {
    // SAFETY: the pointers come from references to the packet, whose count is
    // its own, and to the four places.
    unsafe {
        banavoge_client_read(
            packet.as_ptr(),
            packet.len(),
            &mut places.number,
            &mut places.ping,
            &mut places.start,
            &mut places.length,
        )
    }
}

/// Reads the key of a packet at the relay's end; 32 zero bytes where a packet
/// of its kind has none.
pub fn relay_key(packet: &[u8], key: &mut Key) -> i32 {
    // SAFETY: the pointers come from references to the packet, whose count is
    // its own, and to the key.
    unsafe { banavoge_relay_key(packet.as_ptr(), packet.len(), key) }
}

/// Reads the key of a packet at the client's end; 32 zero bytes where a packet
/// of its kind has none.
pub fn client_key(packet: &[u8], key: &mut Key) -> i32 {
    // SAFETY: the pointers come from references to the packet, whose count is
    // its own, and to the key.
    unsafe { banavoge_client_key(packet.as_ptr(), packet.len(), key) }
}
