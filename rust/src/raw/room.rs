//! The room: its size, the empty room, and the test.

extern "C" {
    fn banavoge_room_bytes() -> usize;

    fn banavoge_room_empty(room: *mut u8, room_length: usize) -> i32;

    fn banavoge_room_check(room: *const u8, room_length: usize) -> i32;
}

/// How many bytes of memory a room takes.
pub fn bytes() -> usize {
    // SAFETY: the call takes nothing.
    unsafe { banavoge_room_bytes() }
}

/// Makes memory the empty room: 0, or a refusal.
pub fn empty(room: &mut [u8]) -> i32 {
    // SAFETY: the pointer comes from a reference to the room, whose count is its
    // own.
    unsafe { banavoge_room_empty(room.as_mut_ptr(), room.len()) }
}

/// Tests memory in full: 0 where it holds a whole room, or a refusal.
pub fn check(room: &[u8]) -> i32 {
    // SAFETY: the pointer comes from a reference to the room, whose count is its
    // own.
    unsafe { banavoge_room_check(room.as_ptr(), room.len()) }
}
