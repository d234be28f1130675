//! Who sits where, in a room in lent memory.

use super::Key;

extern "C" {
    fn banavoge_key_in(room: *const u8, room_length: usize, seat: u8, key: *mut Key) -> i32;

    fn banavoge_seat_of(room: *const u8, room_length: usize, key: *const Key) -> i32;
}

/// Sets the key of the client in a seat: 0, or a refusal.
pub fn key_in(room: &[u8], seat: u8, key: &mut Key) -> i32 {
    // SAFETY: the pointers come from references to the room, whose count is its
    // own, and to the key.
    unsafe { banavoge_key_in(room.as_ptr(), room.len(), seat, key) }
}

/// The seat of the client with a key, or a refusal.
pub fn seat_of(room: &[u8], key: &Key) -> i32 {
    // SAFETY: the pointers come from references to the room, whose count is its
    // own, and to the key.
    unsafe { banavoge_seat_of(room.as_ptr(), room.len(), key) }
}
